# The days that are measured: the largest ones, and days of silent lots that grow.

LONGEST_TEXT = 65535
TROUBLES = 30000

# For each number of offices a ladder on which the window closes at once, one on which many
# signals go before it closes, and one on which it stays open.
LADDERS = {
    1: [("closes at once", "halving/1"), ("closes late", "halving/14"),
        ("stays open", "listed/16,16,16,16")],
    64: [("closes at once", "halving/1"), ("closes late", "listed/16,16"),
         ("stays open", "listed/16,16,16")],
}

# On this ladder no day is long enough for a signal.
SILENT_GRAIN = 8388608


class Case:
    """A pair of texts, and what is said of it in a table."""

    def __init__(self, title, terms, day):
        self.title = title
        self.terms = terms
        self.day = day


def terms_text(offices, grain, ladder, post):
    return "offices={}\ngrain={}\nladder={}\npost={}\n".format(offices, grain, ladder, post).encode()


def day_text(marks, lots):
    return "marks={}\nlots={}\n".format(marks, ",".join(lots)).encode()


def longest_day(offices, marks):
    """A day of 65,535 bytes: these marks, and lots at the offices in turn as far as they go."""
    left = LONGEST_TEXT - len(day_text(marks, []))
    lots = []
    while True:
        lot = str(len(lots) % offices + 1)
        # Before the first lot stands no comma.
        cost = len(lot) + (1 if lots else 0)
        if cost > left:
            break
        lots.append(lot)
        left -= cost
    # A point carries its frame once, as if no mark stood there.
    return day_text(marks + "." * left, lots)


def largest_days():
    """All of the largest days."""
    cases = []
    for offices in LADDERS:
        for closing, ladder in LADDERS[offices]:
            for post in ["direct", "bit"]:
                for troubles in [0, TROUBLES]:
                    title = "{} | {} | {} | {}".format(offices, closing, post, troubles)
                    cases.append(Case(title, terms_text(offices, 1, ladder, post),
                                      longest_day(offices, "-" * troubles)))
    return cases


def silent_day(offices, lots):
    """So many lots at office 1, none of which sends a signal."""
    title = "{} | {}".format(offices, lots)
    terms = terms_text(offices, SILENT_GRAIN, "halving/1", "direct")
    return Case(title, terms, day_text("", ["1"] * lots))
