# The table of cases: how a pair of texts is written as one line, and read back.
#
# Each case is one line: the terms, one space, the day, both escaped.
# A backslash and a number in braces repeat the last byte until the text has so many bytes.

# How the bytes that may not stand for themselves are written.
ESCAPES = {10: "\\n", 13: "\\r", 32: "\\s", 92: "\\\\", 9: "\\t", 0: "\\z", 255: "\\h"}

# What a backslash and the letter after it stand for.
ESCAPED = {ord(escape[1]): code for code, escape in ESCAPES.items()}

# A run of one byte that is longer than this is written as a repetition.
LONGEST_RUN_WRITTEN_OUT = 40


# ---- Writing ----

def escape_byte(code):
    if code in ESCAPES:
        return ESCAPES[code]
    if code < 33 or code > 126:
        raise ValueError("the table cannot hold this byte: " + str(code))
    return chr(code)


def encode(text):
    """The text as it stands in the table."""
    pieces = []
    at = 0
    while at < len(text):
        end = at
        while end < len(text) and text[end] == text[at]:
            end += 1
        piece = escape_byte(text[at])
        if end - at > LONGEST_RUN_WRITTEN_OUT:
            pieces.append(piece + "\\{" + str(end) + "}")
        else:
            pieces.append(piece * (end - at))
        at = end
    return "".join(pieces)


def encode_case(case_terms, case_day):
    """The line of the table for these two texts."""
    line = encode(case_terms) + " " + encode(case_day) + "\n"
    return line.encode("ascii")


# ---- Reading ----

def repeat_last(decoded, length):
    """Repeats the last byte until there are `length` bytes in all."""
    last = 10
    if len(decoded) > 0:
        last = decoded[-1]
    while len(decoded) < length:
        decoded.append(last)


def decode(escaped):
    """The text that stands escaped in the table."""
    decoded = bytearray()
    at = 0
    while at < len(escaped):
        if escaped[at] != ord("\\"):
            decoded.append(escaped[at])
            at += 1
        elif escaped[at + 1] == ord("{"):
            closing = escaped.index(b"}", at)
            repeat_last(decoded, int(escaped[at + 2:closing]))
            at = closing + 1
        else:
            decoded.append(ESCAPED[escaped[at + 1]])
            at += 2
    return bytes(decoded)


def decode_case(line):
    """The two texts of one line of the table."""
    parts = line.split(b" ")
    if len(parts) != 2:
        raise ValueError("a line of the table needs exactly one space")
    return decode(parts[0]), decode(parts[1])


def decode_table(table):
    """All cases of a table, each a pair of texts."""
    lines = table.split(b"\n")
    if lines[-1] != b"":
        raise ValueError("the last line of the table has no line end")
    cases = []
    for line in lines[:-1]:
        cases.append(decode_case(line))
    return cases
