# The figures that docs/RULES.md gives for the accepted lots alone; a window is checked by them.

from carriers import BitPost, LOST, CARRIED_TWICE
from internal_error import must_hold


class Figures:
    """The books that the closed forms give for a ladder and the accepted lots of each office."""

    def __init__(self, ladder, totals):
        self.closed = is_closed(ladder, totals)
        self.step = step_for(ladder, totals)
        self.signals = signals_for(ladder, totals, self.step)
        self.messages = messages_for(ladder, totals, self.step, self.signals, self.closed)
        slack = ladder.slack(self.step)
        self.credits = [slack * (total // slack) for total in totals]
        self.remainders = [total % slack for total in totals]


def lots_in_whole(slack, totals):
    """W(slack): the sum over all offices of slack x floor(total / slack)."""
    return sum(slack * (total // slack) for total in totals)


def ceiling(ladder, offices):
    return offices * ladder.top() - offices * ladder.grain()


def is_closed(ladder, totals):
    return lots_in_whole(ladder.grain(), totals) >= ceiling(ladder, len(totals))


def step_for(ladder, totals):
    offices = len(totals)
    for step in range(1, ladder.steps() + 1):
        slack = ladder.slack(step)
        if lots_in_whole(slack, totals) < offices * ladder.top() - offices * slack:
            return step
    return ladder.steps()


def signals_for(ladder, totals, step):
    offices = len(totals)
    slack = ladder.slack(step)
    before = offices * ladder.top() - offices * ladder.slack(step - 1)
    difference = lots_in_whole(slack, totals) - before
    must_hold(difference % slack == 0, "the signals are a whole number")
    return difference // slack


def messages_for(ladder, totals, step, signals, closed):
    offices = len(totals)
    if closed:
        return offices * sum_of_divisors(ladder, ladder.steps())
    return offices * sum_of_divisors(ladder, step - 1) + signals


def sum_of_divisors(ladder, last_step):
    """d(1) + ... + d(last_step)."""
    return sum(ladder.divisor(step) for step in range(1, last_step + 1))


def puts_of_one_send(marks, at):
    """The outcomes of the puts of one send, with the marks from `at` on; a put past them is once.

    Returns how many puts there are: one for the data frame of each attempt, and one for the
    acknowledgement of each data frame that arrives, until an acknowledgement arrives.
    """
    puts = 0
    acknowledged = False
    while not acknowledged:
        data_frames_arrived = frames_arrived(marks, at + puts)
        puts += 1
        for _ in range(data_frames_arrived):
            if frames_arrived(marks, at + puts) > 0:
                acknowledged = True
            puts += 1
    return puts


def frames_arrived(marks, at):
    if at >= len(marks):
        return 1
    if marks[at] == LOST:
        return 0
    if marks[at] == CARRIED_TWICE:
        return 2
    return 1


def frames_for(marks, messages):
    """The frames that so many messages need, given the marks; no window is played."""
    frames = 0
    for _ in range(messages):
        frames += puts_of_one_send(marks, frames)
    return frames


def check_books(window, totals):
    """Raises an internal error unless the books of the window are those of the closed forms."""
    figures = Figures(window.ladder, totals)
    coordinator = window.coordinator
    remainders = [office.remainder for office in window.offices]
    must_hold(coordinator.window_is_open == (not figures.closed), "where the window closes")
    must_hold(coordinator.step == figures.step, "the step")
    must_hold(coordinator.signals == figures.signals, "the signals")
    must_hold(window.post.message_count() == figures.messages, "the messages")
    must_hold(coordinator.credits == figures.credits, "the credits")
    must_hold(remainders == figures.remainders, "the remainders")
    must_hold(not window.post.holds_something(), "between lots no lane holds anything")
    must_hold(window.messages_passed_over == 0, "in a window no other message comes up")
    for office in window.offices:
        must_hold(office.remainder < window.ladder.slack(office.step),
                  "a remainder below the slack of its office's step")
    if figures.closed:
        most_above = (len(totals) - 1) * (window.ladder.grain() - 1)
        above = sum(totals) - ceiling(window.ladder, len(totals))
        must_hold(above <= most_above, "the accepted lots above the ceiling")


def check_closing_lot(ladder, totals, office_of_last_accepted):
    """The last accepted lot closed the window: without it the window would be open."""
    totals_before = list(totals)
    totals_before[office_of_last_accepted - 1] -= 1
    must_hold(is_closed(ladder, totals), "the closing lot reaches the ceiling")
    must_hold(not is_closed(ladder, totals_before), "the lot before does not reach the ceiling")


def check_frames(post):
    """Raises an internal error unless the frame count is within its bounds and exact."""
    if not isinstance(post, BitPost):
        must_hold(post.frame_count == 0, "a direct post puts no frame")
        return
    messages = post.message_count()
    must_hold(post.frame_count >= 2 * messages, "the lower bound of the frames")
    must_hold(post.frame_count <= 2 * messages + 2 * post.troubles_used(),
              "the upper bound of the frames")
    must_hold(post.frame_count == frames_for(post.wire.marks, messages), "the frames exactly")
