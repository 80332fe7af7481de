# Builds texts from values, fixed or random, for the table of cases and for the random days.

import random

TOP_LIMIT = 16777216


# ---- Texts of given values ----

def terms(offices="3", grain="1", ladder="halving/2", post="bit"):
    """Terms with these values, whether good or not."""
    text = "offices=" + offices + "\n"
    text += "grain=" + grain + "\n"
    text += "ladder=" + ladder + "\n"
    text += "post=" + post + "\n"
    return text.encode("latin-1")


def day(marks=".-+", lots="1,2"):
    """A day with these values, whether good or not."""
    text = "marks=" + marks + "\n"
    text += "lots=" + lots + "\n"
    return text.encode("latin-1")


def listed(divisors):
    """The value of `ladder=` for these divisors."""
    return "listed/" + ",".join(str(divisor) for divisor in divisors)


def joined(lots):
    """The value of `lots=` for lots at these offices."""
    return ",".join(str(office) for office in lots)


# ---- Lists of lots ----

def lots_of(totals):
    """So many lots at each office: first all those of office 1, then those of office 2."""
    lots = []
    for at, total in enumerate(totals):
        lots += [at + 1] * total
    return lots


def taking_turns(totals):
    """So many lots at each office: one at each office that has some left, again and again."""
    left = list(totals)
    lots = []
    while sum(left) > 0:
        for at in range(len(left)):
            if left[at] > 0:
                left[at] -= 1
                lots.append(at + 1)
    return lots


def in_turn(offices, count):
    """So many lots in all: one at each office in turn, again and again."""
    return [at % offices + 1 for at in range(count)]


# ---- Random choices ----

# Only random.random() is used: its numbers are promised to stay the same for one seed.
def below(source, count):
    """A random number from 0 to count - 1."""
    return int(source.random() * count)


def pick(source, items):
    return items[below(source, len(items))]


def shuffled(source, items):
    """The items in a random order."""
    found = list(items)
    for at in range(len(found) - 1, 0, -1):
        other = below(source, at + 1)
        found[at], found[other] = found[other], found[at]
    return found


def random_marks(source, kinds, count):
    """So many marks, each one of these kinds; a kind may be given more than once."""
    return "".join(pick(source, kinds) for _ in range(count))


# ---- Random texts that are hardly played ----

def random_ladder(source):
    """A grain and a ladder whose top is within the limit."""
    if below(source, 2) == 0:
        steps = 1 + below(source, 16)
        grain = 1 + below(source, 2 ** (24 - steps))
        return str(grain), "halving/" + str(steps)
    grain = pick(source, [1, 2, 7, 10, 99, 256, 1000, 65536, 1048576])
    top = grain
    divisors = []
    for _ in range(1 + below(source, 16)):
        divisor = 2 + below(source, 15)
        if top * divisor <= TOP_LIMIT:
            top = top * divisor
            divisors.append(str(divisor))
    return str(grain), "listed/" + ",".join(divisors)


def random_good_pair(source):
    """Good texts with a few marks and lots, on any ladder."""
    offices = 1 + below(source, 64)
    grain, ladder = random_ladder(source)
    post = pick(source, ["direct", "bit"])
    marks = ""
    for _ in range(below(source, 12)):
        marks += pick(source, [".", "-", "+"])
    lots = []
    for _ in range(below(source, 12)):
        lots.append(str(1 + below(source, offices)))
    return terms(str(offices), grain, ladder, post), day(marks, ",".join(lots))


# ---- Random texts that are played far ----

def random_small_ladder(source, offices, most_lots):
    """A grain and divisors such that about `most_lots` lots can close the window."""
    most_top = 2 + most_lots // offices
    grain = 1
    if below(source, 2) == 0:
        grain = 1 + below(source, max(1, most_top // 3))
    top = grain
    divisors = []
    for _ in range(1 + below(source, 8)):
        divisor = 2 + below(source, pick(source, [1, 3, 15]))
        if len(divisors) == 0 or top * divisor <= most_top:
            top = top * divisor
            divisors.append(divisor)
    return grain, divisors


def random_offices_of_lots(source, offices, count):
    """So many lots, spread over the offices in one of several ways."""
    way = pick(source, ["any", "any", "few", "blocks", "turns"])
    if way == "any":
        return [1 + below(source, offices) for _ in range(count)]
    if way == "few":
        favourites = [1 + below(source, offices) for _ in range(3)]
        return [pick(source, favourites) for _ in range(count)]
    if way == "turns":
        return in_turn(offices, count)
    lots = []
    while len(lots) < count:
        lots += [1 + below(source, offices)] * (1 + below(source, 40))
    return lots[:count]


def random_marks_of_a_day(source):
    kinds = pick(source, [".", "-", "+", ".-", ".+", "-+", ".-+", "...-+", "---+.", "-----.",
                          "+++."])
    return random_marks(source, kinds, pick(source, [0, 1, 2, 5, 20, below(source, 200)]))


def random_day(source, most_lots=300):
    """Good texts whose lots go to some step of the ladder, or past the closing."""
    offices = pick(source, [1, 2, 2, 3, 3, 4, 5, 8, 1 + below(source, 64), 40, 64])
    grain, divisors = random_small_ladder(source, offices, most_lots)
    ladder = listed(divisors)
    if max(divisors) == 2 and below(source, 3) > 0:
        ladder = "halving/" + str(len(divisors))
    top = grain
    for divisor in divisors:
        top = top * divisor
    ceiling = offices * (top - grain)
    share = pick(source, [0.2, 0.6, 0.9, 1.0, 1.0, 1.3])
    count = int(ceiling * share) + below(source, 4)
    lots = random_offices_of_lots(source, offices, min(count, 2 * most_lots))
    post = pick(source, ["direct", "bit", "bit", "bit"])
    return (terms(str(offices), str(grain), ladder, post),
            day(random_marks_of_a_day(source), joined(lots)))


# ---- Random damage ----

def random_byte(source):
    usual = b"0123456789,\n=/.-+"
    unusual = b"\x00\t\r \xff\\abdeghilnoprstvxAZ{};:"
    if below(source, 2) == 0:
        return bytes([pick(source, usual)])
    return bytes([pick(source, unusual)])


def random_edit(source, text):
    """The text with one random edit; it may come out as it was."""
    at = below(source, len(text) + 1)
    kind = pick(source, ["replace", "replace", "insert", "insert", "delete", "delete",
                         "cut", "swap"])
    if kind == "replace":
        return text[:at] + random_byte(source) + text[at + 1:]
    if kind == "insert":
        return text[:at] + random_byte(source) + text[at:]
    if kind == "delete":
        return text[:at] + text[at + 1:]
    if kind == "cut":
        return text[:at]
    lines = text.split(b"\n")
    first = below(source, len(lines))
    second = below(source, len(lines))
    lines[first], lines[second] = lines[second], lines[first]
    return b"\n".join(lines)


def random_damage(source, case_terms, case_day):
    """The two texts with one to three random edits."""
    for _ in range(1 + below(source, 3)):
        if below(source, 2) == 0:
            case_terms = random_edit(source, case_terms)
        else:
            case_day = random_edit(source, case_day)
    return case_terms, case_day


def source_of(seed):
    """Where random numbers come from, the same ones for the same seed."""
    return random.Random(seed)
