# Cases of good texts whose days are to be played: offices, ladders, closings, orders and marks.

from building import (below, day, in_turn, joined, listed, lots_of, pick, random_day, random_marks,
                      shuffled, source_of, taking_turns, terms)

SEED = 20082
RANDOM_DAYS = 200
LONGEST = 65535


class House:
    """The values of good terms, all but the post."""

    def __init__(self, offices, grain, divisors, word="listed"):
        self.offices = offices
        self.grain = grain
        self.divisors = divisors
        self.word = word

    def ladder(self):
        if self.word == "halving":
            return "halving/" + str(len(self.divisors))
        return listed(self.divisors)

    def terms(self, post):
        return terms(str(self.offices), str(self.grain), self.ladder(), post)

    def ceiling(self):
        top = self.grain
        for divisor in self.divisors:
            top = top * divisor
        return self.offices * (top - self.grain)

    def case(self, lots, post="bit", marks=""):
        return self.terms(post), day(marks, joined(lots))


def halving(offices, grain, steps):
    return House(offices, grain, [2] * steps, "halving")


def count_to_closing(house, lots):
    """How many of these lots it takes until the lots in whole grains reach the ceiling."""
    totals = [0] * house.offices
    in_whole_grains = 0
    for count, office in enumerate(lots):
        totals[office - 1] += 1
        if totals[office - 1] % house.grain == 0:
            in_whole_grains += house.grain
        if in_whole_grains == house.ceiling():
            return count + 1
    raise ValueError("these lots do not close the window")


def lots_to_closing(house):
    """Lots at the offices in turn, up to the one that closes the window."""
    enough = in_turn(house.offices, house.ceiling() + house.offices * house.grain)
    return enough[:count_to_closing(house, enough)]


# ---- The days of the documents ----

WORKED_DAYS = [
    (halving(1, 1, 1), [1, 1]),
    (halving(2, 2, 2), lots_of([7, 6])),
    (halving(2, 2, 2), lots_of([7, 5])),
    (halving(2, 2, 2), [2] * 5 + [1] * 7),
    (halving(2, 1, 3), [2] * 3 + [1] * 8),
    (House(2, 1, [3, 2]), [1] * 10),
    (House(2, 1, [3, 2]), lots_of([5, 5])),
    (House(2, 1, [3, 2]), taking_turns([5, 5])),
    (halving(3, 1, 2), [1, 1, 1, 1, 1, 1, 2, 2, 3, 3]),
]


# The worked days and the sample, over both posts.
def worked_days():
    cases = []
    for house, lots in WORKED_DAYS:
        for marks in ["", "-+"]:
            cases.append(house.case(lots, "direct", marks))
        for marks in ["", "-", "+", "-+", ".-", "+--.", "-" * 30]:
            cases.append(house.case(lots, "bit", marks))
    return cases


# Every beginning of the sample's day, and of one that closes late.
def beginnings():
    cases = []
    for house, lots in [WORKED_DAYS[8], WORKED_DAYS[1]]:
        for count in range(len(lots)):
            cases.append(house.case(lots[:count], "bit", "-+"))
    return cases


# ---- Offices, ladders and grains ----

# One lot less than closes the window, exactly enough, and some more; from few to most offices.
def numbers_of_offices():
    cases = []
    for offices in [1, 2, 3, 5, 40, 64]:
        for house in [halving(offices, 1, 1), halving(offices, 1, 2), House(offices, 1, [3]),
                      House(offices, 3, [2]), House(offices, 2, [2, 3])]:
            lots = lots_to_closing(house)
            cases.append(house.case(lots[:-1], "bit"))
            cases.append(house.case(lots, "direct"))
            cases.append(house.case(lots + [offices, 1, 1], "bit", "+-"))
    # The largest divisor with the most offices.
    for offices in [40, 64]:
        house = House(offices, 1, [16])
        cases.append(house.case(lots_to_closing(house), "bit", ".-.+"))
    return cases


# Ladders of each number of steps, to the closing where that takes few enough lots.
def numbers_of_steps():
    cases = []
    for steps in range(1, 14):
        house = halving(1, 1, steps)
        cases.append(house.case([1] * house.ceiling(), "bit", "-.+" * steps))
    for steps in range(1, 17):
        count = min(2 ** steps, 600)
        house = House(1, 1, [2] * steps)
        cases.append(house.case([1] * (count * 3 // 4), "direct"))
        house = halving(2, 1, steps)
        cases.append(house.case(in_turn(2, count), "bit"))
    for steps in range(1, 8):
        house = halving(2, 1, steps)
        cases.append(house.case(lots_to_closing(house) + [2], "bit", "+-" * steps))
        house = halving(3, 2, steps)
        cases.append(house.case([1] * house.ceiling(), "direct"))
    return cases


# Listed ladders of different divisors, to the closing and a little less far.
def lists_of_divisors():
    cases = []
    for divisors in [[16], [15], [7], [2, 16], [16, 2], [3, 3, 3], [2, 3, 4], [4, 3, 2], [5, 2, 5],
                     [11, 2], [2, 2, 2, 2, 3], [3, 2, 2, 2, 2]]:
        for offices in [1, 2, 3]:
            house = House(offices, 1, divisors)
            lots = lots_to_closing(house)
            cases.append(house.case(lots, "bit", "-+."))
            cases.append(house.case(lots[:len(lots) * 4 // 5], "direct"))
    return cases


# Grains from the least to the largest; large ones leave remainders only.
def grains():
    cases = []
    for grain in [1, 2, 3, 4, 5, 7, 10, 16, 33, 100]:
        for house in [halving(1, grain, 1), halving(3, grain, 1), House(2, grain, [3, 2])]:
            cases.append(house.case(lots_to_closing(house), "bit", "+"))
    for grain in [101, 255, 256, 1000, 65536, 1048576, 4194304, 8388607, 8388608]:
        for house in [halving(1, grain, 1), House(3, grain, [2])]:
            cases.append(house.case(in_turn(house.offices, 120), "bit", "-"))
    # One lot below a signal, the signal itself, and one lot more.
    for count in [254, 255, 256, 510]:
        cases.append(halving(2, 255, 2).case([2] * count, "direct"))
    return cases


# ---- Closings ----

# Days that close at the first lot, and late lots after it.
def closing_at_once():
    house = halving(1, 1, 1)
    cases = []
    for late in [0, 1, 2, 3, 10, 200]:
        cases.append(house.case([1] * (1 + late), "bit", "-"))
        cases.append(house.case([1] * (1 + late), "direct", "-"))
    return cases


# Late lots at different offices after different closings.
def late_lots():
    cases = []
    for house in [halving(2, 1, 2), halving(3, 2, 2), House(5, 1, [3, 2]), House(4, 3, [4])]:
        lots = lots_to_closing(house)
        for late in [[1], [house.offices], in_turn(house.offices, 7), [1] * 50]:
            cases.append(house.case(lots + late, "bit", ".-"))
    return cases


# The most lots above the ceiling: a grain less one at every office but one.
def lots_above_the_ceiling():
    cases = []
    for house in [halving(2, 2, 1), halving(3, 5, 1), House(3, 4, [3, 2]), halving(5, 7, 2),
                  halving(40, 3, 1), halving(64, 2, 1)]:
        before = lots_of([0] + [house.grain - 1] * (house.offices - 1))
        closing = [1] * house.ceiling()
        cases.append(house.case(before + closing, "bit", "+"))
        cases.append(house.case(before + closing + [1, 2], "direct"))
        cases.append(house.case(before + closing[:-1], "bit"))
        cases.append(house.case(closing + before, "direct"))
    return cases


# Large remainders at every office but one, so that a start is followed by many signals at once.
def many_signals_at_a_start():
    cases = []
    for house in [House(2, 1, [2, 16]), House(3, 1, [2, 16]), House(5, 2, [3, 10]),
                  House(2, 1, [2, 2, 16]), House(64, 1, [2, 16]), House(40, 1, [2, 5])]:
        slack = house.ceiling() // house.offices + house.grain
        slack = slack // house.divisors[0]
        filled = lots_of([0] + [slack - 1] * (house.offices - 1))
        signals = house.offices * (house.divisors[0] - 1)
        finishing = [1] * (slack * signals)
        cases.append(house.case(filled + finishing, "bit", "-.+.-"))
        cases.append(house.case(finishing + filled, "direct"))
        cases.append(house.case(filled + finishing[:-1], "direct"))
    return cases


# ---- Orders ----

# The same lots in several orders; the last of these totals close the window.
def orders_of_the_same_lots():
    source = source_of(SEED)
    cases = []
    for house, totals in [
            (halving(2, 2, 2), [7, 5]), (halving(2, 1, 3), [8, 3]), (halving(3, 1, 2), [2, 2, 2]),
            (halving(3, 3, 2), [9, 8, 5]), (House(2, 1, [3, 2]), [6, 3]),
            (House(4, 1, [5, 4]), [30, 20, 10, 5]), (House(5, 2, [2, 3, 2]), [1, 2, 3, 40, 30]),
            (halving(5, 1, 4), [20, 0, 15, 15, 10]), (House(3, 1, [16]), [15, 14, 13]),
            (House(3, 1, [2, 2, 3]), [12, 11, 10]), (House(5, 1, [3, 2]), [5, 5, 5, 5, 5]),
            (House(2, 4, [3, 3]), [33, 35]), (halving(3, 2, 2), [8, 7, 6])]:
        one_after_another = lots_of(totals)
        one_each = taking_turns(totals)
        orders = [one_after_another, one_after_another[::-1], one_each, one_each[::-1]]
        orders += [shuffled(source, one_each) for _ in range(3)]
        for order in orders:
            cases.append(house.case(order, pick(source, ["direct", "bit"]), "+-.-"))
    return cases


# ---- Marks ----

def marks_of_one_kind():
    found = []
    for count in [1, 2, 3, 12, 24, 36, 41, 100, 500, 1000]:
        found.append("-" * count)
    for count in [1, 2, 3, 7, 24, 36, 100, 1000]:
        found.append("+" * count)
    for count in [1, 10, 100]:
        found.append("." * count)
    return found


def marks_of_several_kinds():
    found = ["-+" * 10, "+-" * 10, ".-" * 10, ".+" * 10, "+--" * 10, "+.-" * 10, ".-+" * 30]
    found += ["." * 20 + "-" * 20, "+" * 20 + "-" * 20, "." * 5 + "+" * 60 + "-" * 60 + "."]
    return found


# The same days under many different marks.
def different_marks():
    days = [(halving(3, 1, 2), [1, 1, 1, 1, 1, 1, 2, 2, 3, 3]), (House(1, 1, [16]), [1] * 15),
            (halving(2, 2, 3), lots_to_closing(halving(2, 2, 3))),
            (halving(64, 1, 1), in_turn(64, 64))]
    cases = []
    for house, lots in days:
        for marks in [""] + marks_of_one_kind() + marks_of_several_kinds():
            cases.append(house.case(lots, "bit", marks))
        for marks in ["-", "+" * 100, "-" * 1000, ".-+" * 30]:
            cases.append(house.case(lots, "direct", marks))
    return cases


# Every list of at most four marks, for a day of two messages.
def every_short_list_of_marks():
    found = [""]
    longest = [""]
    for _ in range(4):
        longest = [marks + mark for marks in longest for mark in ".-+"]
        found += longest
    return [halving(1, 1, 1).case([1], "bit", marks) for marks in found]


# Random marks that end early, in the middle or after the end of a day.
def random_marks_of_different_lengths():
    source = source_of(SEED + 1)
    cases = []
    for house in [halving(1, 1, 1), halving(2, 1, 2), House(3, 2, [3, 2]), House(5, 1, [4])]:
        lots = lots_to_closing(house)
        for kinds in [".-+", "...-+", "--+.", "-----.", "+++-"]:
            for count in [5, 6, 25, 90]:
                cases.append(house.case(lots, "bit", random_marks(source, kinds, count)))
    return cases


# ---- Long days ----

def filled_with_marks(source, house, lots, kinds):
    """A day of exactly as many bytes as it may have: marks take what the lots leave."""
    room = LONGEST - len(day("", joined(lots)))
    return house.case(lots, "bit", random_marks(source, kinds, room))


# Days of as many lots as fit, with one office and with sixty-four.
def days_of_many_lots():
    source = source_of(SEED + 2)
    most = 32761
    anywhere = [1 + below(source, 64) for _ in range(22700)]
    low_offices = [1 + below(source, 9) for _ in range(32704)]
    return [
        halving(1, 1, 14).case([1] * most, "bit", "+"),
        halving(1, 1, 15).case([1] * most, "direct"),
        House(1, 8, [16, 16, 16]).case([1] * most, "bit", "-"),
        filled_with_marks(source, halving(64, 1, 8), anywhere, ".-+"),
        halving(64, 1, 9).case(low_offices, "bit", ".-+" * 38),
        filled_with_marks(source, House(64, 1, [16, 16]), in_turn(64, 16320), "..-+"),
    ]


# Days of tens of thousands of marks.
def days_of_many_marks():
    source = source_of(SEED + 3)
    three = House(3, 1, [16, 16])
    most = House(64, 1, [16])
    runs = ("-" * 50 + "+" * 50) * 300
    return [
        three.case(in_turn(3, 770), "bit", random_marks(source, "-" * 40 + "+.", 25000)),
        most.case(in_turn(64, 965), "bit", random_marks(source, "-----.", 30000)),
        most.case(in_turn(64, 965), "bit", runs),
        most.case(in_turn(64, 965), "bit", "+" * 60000),
        most.case(in_turn(64, 965), "bit", "." * 1001 + "-" * 60000),
        halving(5, 1, 3).case(in_turn(5, 40), "bit", "-" * 65000),
        halving(5, 1, 3).case(in_turn(5, 40), "bit", "-" * 30000 + "+" * 30000),
        halving(5, 1, 3).case(in_turn(5, 40), "direct", "-" * 65000),
    ]


# ---- Random days ----

def random_days():
    source = source_of(SEED + 4)
    return [random_day(source) for _ in range(RANDOM_DAYS)]


PLAYED_GROUPS = [
    worked_days, beginnings, numbers_of_offices, numbers_of_steps, lists_of_divisors, grains,
    closing_at_once, late_lots, lots_above_the_ceiling, many_signals_at_a_start,
    orders_of_the_same_lots, different_marks, every_short_list_of_marks,
    random_marks_of_different_lengths, days_of_many_lots, days_of_many_marks, random_days,
]
