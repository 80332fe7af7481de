# Reads the two texts, terms and day, up to the first fault, as docs/FORMATS.md tells it.

from ladders import halving_ladder, listed_ladder

LINE_END = 10
COMMA = ord(",")
DIGITS = b"0123456789"
MARKS = b".-+"

DIRECT = b"direct"
BIT = b"bit"

LONGEST_TEXT = 65535
MOST_DIGITS = 8
MOST_OFFICES = 64
MOST_GRAIN = 8388608
MOST_STEPS = 16
LEAST_DIVISOR = 2
MOST_DIVISOR = 16
HIGHEST_TOP = 16777216

# The refusals that the texts can meet, by their numbers.
NO_SUCH_OFFICE = 1
TEXT_TOO_LONG = 8
NOT_AS_EXPECTED = 9
NOT_A_NUMBER = 10
OUT_OF_RANGE = 11
UNKNOWN_WORD = 12
NOT_A_MARK = 13
BYTES_AFTER_END = 14


class Fault(Exception):
    """The first fault found: its refusal, its layer and its place."""

    def __init__(self, refusal, layer, place):
        super().__init__(refusal, layer, place)
        self.refusal = refusal
        self.layer = layer
        self.place = place


class Terms:
    """What good terms say; the post is DIRECT or BIT."""

    def __init__(self, offices, ladder, post):
        self.offices = offices
        self.ladder = ladder
        self.post = post


class Day:
    """What a good day says: the marks as bytes, and the office of each lot."""

    def __init__(self, marks, lots):
        self.marks = marks
        self.lots = lots


class Reader:
    """Reads one text from left to right; `place` is where it stands."""

    def __init__(self, layer, text):
        self.layer = layer
        self.text = text
        self.place = 0

    def fault(self, refusal, place):
        return Fault(refusal, self.layer, place)

    def at_end(self):
        return self.place == len(self.text)

    def stands(self, word):
        """Whether this word stands here in full."""
        return self.text[self.place:self.place + len(word)] == word

    def stands_byte(self, byte):
        """Whether this byte stands here; at the end of the text none does."""
        return not self.at_end() and self.text[self.place] == byte

    def stands_one_of(self, some_bytes):
        """Whether one of these bytes stands here."""
        return not self.at_end() and self.text[self.place] in some_bytes

    def key(self, word):
        if not self.stands(word):
            raise self.fault(NOT_AS_EXPECTED, self.place)
        self.place += len(word)

    def line_end(self):
        if not self.stands_byte(LINE_END):
            raise self.fault(NOT_AS_EXPECTED, self.place)
        self.place += 1

    def end_of_text(self):
        if not self.at_end():
            raise self.fault(BYTES_AFTER_END, self.place)

    def number(self):
        """Takes all digits in a row; judges only whether they are a number."""
        first = self.place
        while self.stands_one_of(DIGITS):
            self.place += 1
        run = self.text[first:self.place]
        if len(run) == 0:
            raise self.fault(NOT_A_NUMBER, first)
        if len(run) > MOST_DIGITS:
            raise self.fault(NOT_A_NUMBER, first)
        if len(run) > 1 and run[0] == ord("0"):
            raise self.fault(NOT_A_NUMBER, first)
        return int(run)

    def number_within(self, least, most, refusal):
        """A number, then its range; the refusal is told at its first byte."""
        first = self.place
        value = self.number()
        if value < least or value > most:
            raise self.fault(refusal, first)
        return value


def read_terms(text):
    """Reads the terms."""
    reader = Reader("terms", text)
    reader.key(b"offices=")
    offices = reader.number_within(1, MOST_OFFICES, OUT_OF_RANGE)
    reader.line_end()
    reader.key(b"grain=")
    grain = reader.number_within(1, MOST_GRAIN, OUT_OF_RANGE)
    reader.line_end()
    reader.key(b"ladder=")
    ladder = read_ladder(reader, grain)
    reader.line_end()
    reader.key(b"post=")
    post = read_post(reader)
    reader.line_end()
    reader.end_of_text()
    return Terms(offices, ladder, post)


def read_ladder(reader, grain):
    if reader.stands(b"halving/"):
        reader.place += len(b"halving/")
        return halving_ladder(grain, read_steps(reader, grain))
    if reader.stands(b"listed/"):
        reader.place += len(b"listed/")
        return listed_ladder(grain, read_divisors(reader, grain))
    raise reader.fault(UNKNOWN_WORD, reader.place)


def read_steps(reader, grain):
    """The number of steps of a halving ladder: its range, then the top."""
    first = reader.place
    steps = reader.number_within(1, MOST_STEPS, OUT_OF_RANGE)
    if grain * 2 ** steps > HIGHEST_TOP:
        raise reader.fault(OUT_OF_RANGE, first)
    return steps


def read_divisors(reader, grain):
    """The divisors of a listed ladder, with a comma between each two."""
    product = grain
    divisors = []
    while True:
        first = reader.place
        divisor = reader.number_within(LEAST_DIVISOR, MOST_DIVISOR, OUT_OF_RANGE)
        product = product * divisor
        if product > HIGHEST_TOP:
            raise reader.fault(OUT_OF_RANGE, first)
        divisors.append(divisor)
        if not reader.stands_byte(COMMA):
            return divisors
        # A comma after the sixteenth divisor is out of range, whatever follows it.
        if len(divisors) == MOST_STEPS:
            raise reader.fault(OUT_OF_RANGE, reader.place)
        reader.place += 1


def read_post(reader):
    for word in [DIRECT, BIT]:
        if reader.stands(word):
            reader.place += len(word)
            return word
    raise reader.fault(UNKNOWN_WORD, reader.place)


def read_day(text, offices):
    """Reads the day."""
    reader = Reader("day", text)
    reader.key(b"marks=")
    marks = read_marks(reader)
    reader.key(b"lots=")
    lots = read_lots(reader, offices)
    reader.line_end()
    reader.end_of_text()
    return Day(marks, lots)


def read_marks(reader):
    """Reads the marks and the line end after them; returns the marks."""
    first = reader.place
    while reader.stands_one_of(MARKS):
        reader.place += 1
    marks = reader.text[first:reader.place]
    if reader.at_end():
        raise reader.fault(NOT_AS_EXPECTED, reader.place)
    if not reader.stands_byte(LINE_END):
        raise reader.fault(NOT_A_MARK, reader.place)
    reader.place += 1
    return marks


def read_lots(reader, offices):
    """Reads the lots, but not the line end after them; returns the office of each lot."""
    lots = []
    if reader.stands_byte(LINE_END):
        return lots
    while True:
        lots.append(reader.number_within(1, offices, NO_SUCH_OFFICE))
        if not reader.stands_byte(COMMA):
            return lots
        reader.place += 1


def read_both(terms, day):
    """Looks at both lengths, then reads the terms, then the day; returns both."""
    if len(terms) > LONGEST_TEXT:
        raise Fault(TEXT_TOO_LONG, "terms", LONGEST_TEXT)
    if len(day) > LONGEST_TEXT:
        raise Fault(TEXT_TOO_LONG, "day", LONGEST_TEXT)
    good_terms = read_terms(terms)
    return good_terms, read_day(day, good_terms.offices)


def line_of(text, place):
    """The line of a text that goes with a fault at this place."""
    if place > len(text):
        place = len(text)
    # Go back until a byte 10 stands strictly before, or to the start.
    begin = place
    while begin > 0 and text[begin - 1] != LINE_END:
        begin -= 1
    # Go on until a byte 10 stands here, or to the end.
    end = place
    while end < len(text) and text[end] != LINE_END:
        end += 1
    return text[begin:end]
