# The two kinds of ladder, as docs/LADDERS.md tells them: how many steps, and the slack of each.

from internal_error import must_hold


class Ladder:
    """Answers two questions: how many steps there are, and the slack of a step."""

    def __init__(self, slacks):
        # slack(0), the top, comes first; slack(e), the grain, comes last.
        self.slacks = slacks

    def steps(self):
        return len(self.slacks) - 1

    def slack(self, step):
        must_hold(0 <= step <= self.steps(), "refusal 7: the ladder has no such step")
        return self.slacks[step]

    def divisor(self, step):
        """d(j), for j from 1 to e."""
        return self.slack(step - 1) // self.slack(step)

    def top(self):
        return self.slack(0)

    def grain(self):
        return self.slack(self.steps())


def halving_ladder(grain, steps):
    """slack(j) = grain x 2^(steps - j)."""
    return Ladder([grain * 2 ** (steps - step) for step in range(steps + 1)])


def listed_ladder(grain, divisors):
    """slack(j) = grain x the product of the divisors after the j-th."""
    slacks = []
    for step in range(len(divisors) + 1):
        slack = grain
        for divisor in divisors[step:]:
            slack = slack * divisor
        slacks.append(slack)
    return Ladder(slacks)
