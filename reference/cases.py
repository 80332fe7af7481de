# Writes the table of cases: pairs of texts, terms and day, for which answers are compared.
#
# The table is the same at every run, and no pair of texts stands in it twice.
# With the word `texts` it stops before the days to be played.
# The texts here are good or damaged texts to be read; days to be played are in played_days.py.

import sys

from building import day, random_damage, random_good_pair, source_of, terms
from played_days import PLAYED_GROUPS
from table import encode_case

SEED = 20081
RANDOM_GOOD = 60
RANDOM_DAMAGED = 400
LONGEST = 65535
TOO_LONG = 65536

# The texts of examples/sample.
SAMPLE_TERMS = b"offices=3\ngrain=1\nladder=halving/2\npost=bit\n"
SAMPLE_DAY = b"marks=-+\nlots=1,1,1,1,1,1,2,2,3,3\n"

# Another good pair, with a listed ladder and the direct post.
LISTED_TERMS = b"offices=12\ngrain=40\nladder=listed/2,16,3,10\npost=direct\n"
LISTED_DAY = b"marks=\nlots=12,1,10,7\n"

SIXTEEN_TWOS = ",".join(["2"] * 16)


# ---- Building texts ----

def fill(text, byte, length):
    """The text with this byte put behind it until it has the length."""
    return text + byte * (length - len(text))


def of_terms(many_terms):
    """Cases of these terms, each with the same good day."""
    return [(one, day()) for one in many_terms]


def of_days(many_days):
    """Cases of these days, each with the same good terms."""
    return [(terms(), one) for one in many_days]


def twos(count):
    """A listed ladder of so many divisors, each a 2."""
    return "listed/" + ",".join(["2"] * count)


# ---- Good texts ----

# Good texts: the sample, and the ends of every range.
def good_texts():
    cases = [(SAMPLE_TERMS, SAMPLE_DAY), (LISTED_TERMS, LISTED_DAY)]
    for post in ["direct", "bit"]:
        cases += of_terms([
            terms(offices="2", post=post),
            terms(offices="64", post=post),
            terms(grain="8388608", ladder="halving/1", post=post),
            terms(grain="8388608", ladder="listed/2", post=post),
            terms(grain="1", ladder="halving/1", post=post),
            terms(grain="1", ladder="halving/16", post=post),
            terms(grain="256", ladder="halving/16", post=post),
            terms(grain="1", ladder="listed/2", post=post),
            terms(grain="1", ladder="listed/16", post=post),
            terms(grain="1", ladder=twos(16), post=post),
            terms(grain="256", ladder=twos(16), post=post),
            terms(grain="1", ladder="listed/16,16,16,16,16,16", post=post),
            terms(grain="1", ladder="listed/2,3,4,5,6,7,8,9", post=post),
            terms(grain="1", ladder="listed/9,10,11,12,13,14", post=post),
            terms(grain="1000000", ladder="listed/16", post=post),
        ])
    return cases


# Good days: empty and long marks and lots, and the largest offices.
def good_days():
    one = terms(offices="1")
    most = terms(offices="64")
    every = ",".join(str(office) for office in range(1, 65))
    cases = [(one, day("", "")), (one, day("", "1")), (one, day("+", ""))]
    cases += [(one, day("-", "1,1,1")), (one, day(".", ",".join(["1"] * 100)))]
    cases += [(most, day("", "64")), (most, day("+-.", "64,64,64"))]
    cases += [(most, day("", every)), (most, day(".", every + "," + every))]
    cases += [(most, day("+-" * 500, "63,64")), (most, day("." * 60000, "64"))]
    for count in [1, 2, 9, 10, 11, 99, 100, 101, 1000]:
        cases.append((most, day("-" * count, "")))
    for count in [1, 2, 9, 10, 11, 99, 100, 101, 1000]:
        cases.append((most, day("", ",".join(["8"] * count))))
    return cases


# ---- Limits ----

# Numbers of the terms at the ends of their ranges and just outside them.
def limits_of_terms():
    cases = []
    for offices in ["0", "1", "2", "63", "64", "65", "66", "99", "100", "640", "99999999"]:
        cases.append((terms(offices=offices), day(lots="1")))
    grains = ["0", "1", "2", "4194304", "4194305", "8388607", "8388608", "8388609"]
    grains += ["16777216", "16777217", "99999999"]
    for grain in grains:
        for ladder in ["halving/1", "halving/2", "listed/2", "listed/3", "listed/2,2"]:
            cases += of_terms([terms(grain=grain, ladder=ladder)])
    for steps in ["0", "1", "2", "15", "16", "17", "18", "31", "32", "33", "64", "99999999"]:
        for grain in ["1", "256", "257", "8388608"]:
            cases += of_terms([terms(grain=grain, ladder="halving/" + steps)])
    return cases


# Tops at the limit and just over it: by halving, and by lists at each position.
def limits_of_tops():
    cases = []
    for steps in range(1, 17):
        exact = 2 ** (24 - steps)
        for grain in [exact - 1, exact, exact + 1]:
            cases += of_terms([
                terms(grain=str(grain), ladder="halving/" + str(steps)),
                terms(grain=str(grain), ladder=twos(steps)),
                terms(grain=str(grain), ladder=twos(16)),
            ])
    # The divisor that goes too far, with something wrong behind it.
    cases += of_terms([
        terms(grain="8388608", ladder="listed/3x"),
        terms(grain="8388608", ladder="listed/3,"),
        terms(grain="8388608", ladder="listed/3,0"),
        terms(grain="8388608", ladder="listed/2,2x"),
        terms(grain="8388608", ladder="halving/2x"),
        terms(grain="1", ladder="listed/16,16,16,16,16,16,2"),
        terms(grain="1", ladder="listed/16,16,16,16,16,16,"),
        terms(grain="1", ladder="listed/16,16,16,16,16,16,1"),
        terms(grain="2", ladder="listed/16,16,16,16,16,16"),
        terms(grain="257", ladder=twos(16) + ","),
        terms(grain="1048576", ladder="listed/16"),
        terms(grain="1048577", ladder="listed/16"),
        terms(grain="5592405", ladder="listed/3"),
        terms(grain="5592406", ladder="listed/3"),
    ])
    return cases


# Divisors at the ends of their range and just outside it, at each position of a list.
def limits_of_divisors():
    cases = []
    for divisor in ["0", "1", "2", "16", "17", "99999999"]:
        for position in range(16):
            divisors = ["2"] * 16
            divisors[position] = divisor
            cases += of_terms([terms(ladder="listed/" + ",".join(divisors))])
        cases += of_terms([
            terms(ladder="listed/" + divisor),
            terms(ladder="listed/" + divisor + "x"),
            terms(ladder="listed/" + divisor + ","),
            terms(ladder="listed/3," + divisor + ",x"),
        ])
    return cases


# A seventeenth divisor: the comma after the sixteenth, with different things behind it.
def seventeenth_divisor():
    cases = []
    for behind in ["2", "", "0", "17", "x", ",", ",2", " 2", "2,2", "007", "\r", "2x"]:
        cases += of_terms([
            terms(ladder="listed/" + SIXTEEN_TWOS + "," + behind),
            terms(grain="256", ladder="listed/" + SIXTEEN_TWOS + "," + behind),
        ])
    # The text ends after the sixteenth divisor, and after the comma.
    start = b"offices=3\ngrain=1\nladder=listed/" + SIXTEEN_TWOS.encode()
    cases += of_terms([start, start + b",", start + b",2", start + b" ", start + b"."])
    # Fifteen divisors and a comma are no seventeenth.
    cases += of_terms([terms(ladder=twos(15)), terms(ladder=twos(15) + ",")])
    return cases


# Offices of lots: 0, the number of offices k, and k + 1, at each position of a list.
def limits_of_lots():
    cases = []
    for count in [1, 2, 9, 10, 63, 64]:
        for office in [0, 1, count, count + 1, 99999999]:
            for lots in ["{0}", "{0},1", "1,{0}", "1,{0},1", "{0}x", "1,{0},", "1,1,1,{0}\r"]:
                case_terms = terms(offices=str(count))
                cases.append((case_terms, day("", lots.format(office))))
    return cases


# Single cases whose answers are known beforehand.
def specific_cases():
    start = b"offices=1\ngrain=8388608\nladder=halving/"
    return [
        (start + b"1\npost=bit\n", b"marks=\nlots=1\n"),
        (start + b"2\npost=bit\n", b"marks=\nlots=1\n"),
        (start + b"2", b""),
        (SAMPLE_TERMS, b"marks=\nlots=1,0"),
        (SAMPLE_TERMS, b"marks=\nlots=1,0\n"),
        (b"offices=65", b""),
        (b"offices=65\n", b""),
        (b"offices=65\ngrain=1\nladder=halving/2\npost=bit\n", SAMPLE_DAY),
    ]


# ---- Numbers ----

NUMBER_FORMS = [
    "", "0", "00", "01", "000000001", "00000000", "123456789", "999999999",
    "12345678", "99999999", "10000000", "010", "1234567890123456789012345",
    "4294967297", "18446744073709551617", "+1", "-1", "1 ", " 1", "1.0", "1e1",
    "0x1", "1_0", "1\t", "\t1", "1\r", "1\0", "\xff", "x", "1x", "/", ":", "007",
]


# Every form of a number at the position of every number in the terms.
def numbers_in_terms():
    cases = []
    for form in NUMBER_FORMS:
        cases += of_terms([
            terms(offices=form),
            terms(grain=form),
            terms(ladder="halving/" + form),
            terms(ladder="listed/" + form),
            terms(ladder="listed/" + form + ",3"),
            terms(ladder="listed/3," + form),
            terms(ladder="listed/3," + form + ",3"),
            terms(ladder=twos(15) + "," + form),
        ])
    return cases


# Every form of a number at the position of every number in the day.
def numbers_in_day():
    cases = []
    for form in NUMBER_FORMS:
        cases += of_days([
            day("", form),
            day("", form + ",2"),
            day("+", "2," + form),
            day("+", "2," + form + ",3"),
        ])
    return cases


# ---- Words ----

# Words of the ladder and of the post, wrong in different ways.
def wrong_words():
    ladders = [
        "", "/", "/2", "2", "halving", "halving2", "halving/", "Halving/2", "HALVING/2",
        "halving /2", "halving/ 2", " halving/2", "halvin/2", "halvingg/2", "halving//2",
        "halving/2,2", "halving/2 ", "halving/2/", "halving,2", "halving\\2", "h", "halv",
        "listed", "listed/", "listed2", "Listed/2", "LISTED/2", "listed/ 2", " listed/2",
        "liste/2", "listed//2", "listed,2", "listed/2/2", "listed/2;2", "l", "direct",
        "bit", "listed/2,halving/2", "halving/listed/2", "listed/halving/2",
    ]
    posts = [
        "", "b", "bi", "bit ", " bit", "Bit", "BIT", "bitten", "bits", "bitbit", "bit/",
        "bit,direct", "biT", "bit\r", "bit\t", "d", "direc", "direct ", " direct",
        "Direct", "DIRECT", "directs", "directdirect", "directbit", "bitdirect",
        "direct/", "direct\r", "dirEct", "irect", "it", "halving/", "listed/2", "1", "=",
    ]
    cases = of_terms([terms(ladder=ladder) for ladder in ladders])
    cases += of_terms([terms(post=post) for post in posts])
    # The text ends in or after the word.
    start = b"offices=3\ngrain=1\nladder="
    cases += of_terms([start + ladder.encode() for ladder in ladders])
    start = b"offices=3\ngrain=1\nladder=halving/2\npost="
    cases += of_terms([start + post.encode() for post in posts])
    return cases


# Keys, wrong in different ways.
def wrong_keys():
    cases = []
    for key in ["offices", "grain", "ladder", "post"]:
        for wrong in [key.upper() + "=", key.title() + "=", key + " =", key + "= ", key,
                      " " + key + "=", key + ":", key + "==", key[1:] + "=", key[:-1] + "=",
                      "", "\r" + key + "="]:
            text = terms().replace(key.encode() + b"=", wrong.encode())
            cases += of_terms([text])
    for key in ["marks", "lots"]:
        for wrong in [key.upper() + "=", key.title() + "=", key + " =", key + "= ", key,
                      " " + key + "=", key + ":", key + "==", key[1:] + "=", key[:-1] + "=",
                      "", "\r" + key + "="]:
            text = day().replace(key.encode() + b"=", wrong.encode())
            cases += of_days([text])
    return cases


# ---- Marks ----

# Every byte that the table can hold, except the marks themselves.
def bytes_that_are_no_marks():
    found = [b"\x00", b"\t", b"\n", b"\r", b"\xff"]
    for code in range(32, 127):
        if bytes([code]) not in [b".", b"-", b"+"]:
            found.append(bytes([code]))
    return found


# Wrong bytes at the start, in the middle and at the end of the marks.
def wrong_marks():
    cases = []
    for byte in bytes_that_are_no_marks():
        cases += of_days([
            b"marks=" + byte + b".-+\nlots=1\n",
            b"marks=.-" + byte + b"+\nlots=1\n",
            b"marks=.-+" + byte + b"\nlots=1\n",
        ])
    return cases


# Marks that the end of the text ends, and other ends of the marks.
def ends_of_marks():
    cases = []
    for marks in [b"", b".", b"-", b"+", b".-+", b"." * 200]:
        for end in [b"", b"\n", b"\r", b"\r\n", b" ", b" \n", b"lots=1\n", b"\nlots", b"\nlots=",
                    b"\n\n", b"\n\nlots=1\n", b"\nlots=\n", b"\nlots=1", b"\nlots=1\n"]:
            cases += of_days([b"marks=" + marks + end])
    # Many marks and a wrong byte behind them.
    cases += of_days([b"marks=" + b"-" * 1000 + b"x\nlots=1\n", b"marks=" + b"+" * 1000])
    return cases


# ---- Lots ----

# Lots with commas and other bytes at wrong places.
def wrong_lots():
    values = [
        b"", b",", b",,", b"1,", b"1,,", b"1,,2", b",1", b",1,2", b" ", b" 1", b"1 ", b"1, 2",
        b"1 ,2", b"1,2 ", b"1,2,", b"1,2,,3", b"1;2", b"1.2", b"1-2", b"1\t2", b"1,\t2", b"1\r",
        b"\r", b"1,\r", b"\x00", b"1\x00", b"1,\x00", b"\xff", b"1\xff", b"1,\xff", b"x", b"1x",
        b"1,x", b"1,2x", b"1,2,3", b"1,2,3,4", b"1,2,3,0", b"3,2,1", b"4", b"0", b"1,4,0",
        b"1,0,4", b"4,", b"4x", b"0x", b"1,+2", b"1,-2", b"-", b"+", b".", b"lots=1", b"1=2",
        b"1,\\", b"1\\", b"\\", b"1,{", b"{3}", b"1}",
    ]
    cases = []
    for value in values:
        # With the line end, without it, and with more than it.
        cases += of_days([
            b"marks=\nlots=" + value + b"\n",
            b"marks=\nlots=" + value,
            b"marks=.\nlots=" + value + b"\n\n",
        ])
    return cases


# Many lots, good ones and such with a fault behind them.
def many_lots():
    many = ",".join(["1", "2", "3"] * 30)
    endings = ["", ",", ",4", ",0", ",1", "x", ",x", ",01", ",123456789", "\r", " ", ",,1"]
    cases = [(terms(), day("", many + ending)) for ending in endings]
    cases.append((terms(), day("", ",".join(["3"] * 5000))))
    # One office too high behind many lots; this line is long.
    cases.append((terms(), day("", ",".join(["3"] * 500) + ",4")))
    return cases


# ---- Lines ----

# Lines of the terms and of the day swapped, missing, doubled, or with a byte 13.
def moved_lines():
    cases = []
    for good_terms, good_day in [(SAMPLE_TERMS, SAMPLE_DAY), (LISTED_TERMS, LISTED_DAY)]:
        for text in moved_lines_of(good_terms):
            cases.append((text, good_day))
        for text in moved_lines_of(good_day):
            cases.append((good_terms, text))
    return cases


def moved_lines_of(text):
    lines = text.splitlines(keepends=True)
    texts = []
    for first in range(len(lines)):
        for second in range(first + 1, len(lines)):
            swapped = list(lines)
            swapped[first], swapped[second] = swapped[second], swapped[first]
            texts.append(b"".join(swapped))
    for at in range(len(lines)):
        before = b"".join(lines[:at])
        after = b"".join(lines[at + 1:])
        bare = lines[at][:-1]
        texts.append(before + after)
        texts.append(before + lines[at] + lines[at] + after)
        texts.append(before + b"\n" + lines[at] + after)
        for line_end in [b"", b"\r", b"\r\n", b"\n\r", b" \n", b"\t\n", b",\n", b"\x00\n",
                         b"\xff\n", b"\n\n", b"\n "]:
            texts.append(before + bare + line_end + after)
    return texts


# Bytes after the last line, a missing last line end, and empty texts.
def ends_of_texts():
    behind = [b"\n", b"\n\n", b" ", b"\r", b"\r\n", b"\x00", b"\xff", b"x", b"x\n", b"1", b",",
              b"\\", b"offices=3\n", b"post=bit\n", b"marks=\n", b"lots=1\n", b"\nx", b"\n" * 300]
    cases = []
    for more in behind:
        cases.append((SAMPLE_TERMS + more, SAMPLE_DAY))
        cases.append((SAMPLE_TERMS, SAMPLE_DAY + more))
        cases.append((SAMPLE_TERMS + more, SAMPLE_DAY + more))
        cases.append((SAMPLE_TERMS[:-1] + more, SAMPLE_DAY))
        cases.append((SAMPLE_TERMS, SAMPLE_DAY[:-1] + more))
        cases.append((more, SAMPLE_DAY))
        cases.append((SAMPLE_TERMS, more))
        cases.append((more, more))
    cases += [(b"", b""), (b"", SAMPLE_DAY), (SAMPLE_TERMS, b"")]
    cases.append((SAMPLE_TERMS[:-1], SAMPLE_DAY[:-1]))
    # The two texts in each other's place, or both in one.
    cases.append((SAMPLE_DAY, SAMPLE_TERMS))
    cases.append((SAMPLE_TERMS, SAMPLE_TERMS))
    cases.append((SAMPLE_DAY, SAMPLE_DAY))
    cases.append((SAMPLE_TERMS + SAMPLE_DAY, b""))
    cases.append((b"", SAMPLE_TERMS + SAMPLE_DAY))
    return cases


# A fault in both texts: that of the terms is told.
def faults_in_both():
    bad_terms = [terms(offices="65"), terms(grain="0"), terms(ladder="halving2"), terms(post="x"),
                 terms(ladder="listed/"), terms() + b"x", terms()[:-1], b"x"]
    bad_days = [day(marks="x"), day(lots="9"), day(lots="01"), day()[:-1], day() + b"x", b"x"]
    cases = []
    for one_terms in bad_terms:
        for one_day in bad_days:
            cases.append((one_terms, one_day))
    return cases


# ---- Lengths ----

# Starts of long texts; a line end ends each, so that the line of a fault is short.
def starts_of_terms():
    return [b"", SAMPLE_TERMS, LISTED_TERMS, b"offices=65\n", b"offices=3\ngrain=x\n", b"x\n"]


def starts_of_days():
    return [b"", SAMPLE_DAY, b"marks=x\n", b"marks=\nlots=4\n", b"marks=\nlots=\n", b"x\n"]


# Terms and days of exactly 65,535 and of 65,536 bytes, with and without other faults.
def long_texts():
    cases = []
    for start in starts_of_terms():
        for length in [LONGEST - 1, LONGEST, TOO_LONG]:
            long_terms = fill(start, b"\n", length)
            cases += [(long_terms, SAMPLE_DAY), (long_terms, b"marks=x\n"), (long_terms, b"")]
    for start in starts_of_days():
        for length in [LONGEST - 1, LONGEST, TOO_LONG]:
            long_day = fill(start, b"\n", length)
            cases += [(SAMPLE_TERMS, long_day), (b"offices=65\n", long_day), (b"", long_day)]
    return cases


# Both texts long: exactly as long as they may be, or too long.
def both_long():
    cases = []
    for terms_start in [b"", SAMPLE_TERMS, b"offices=65\n"]:
        for day_start in [b"", SAMPLE_DAY, b"marks=x\n"]:
            for terms_length in [LONGEST, TOO_LONG]:
                for day_length in [LONGEST, TOO_LONG]:
                    cases.append((fill(terms_start, b"\n", terms_length),
                                  fill(day_start, b"\n", day_length)))
    return cases


# Too long texts with different bytes about place 65,535, which make the line of the fault.
def last_bytes_of_long_texts():
    cases = []
    for last in [b"x", b"\nx", b"x\n", b"xy", b"xy\n", b"\n\n", b"\r", b"\r\n", b"\x00", b"\xff",
                 b"one line", b"one line\n", b"one\ntwo", b"\\", b" "]:
        for length in [LONGEST, TOO_LONG]:
            long_terms = fill(SAMPLE_TERMS, b"\n", length - len(last)) + last
            long_day = fill(SAMPLE_DAY, b"\n", length - len(last)) + last
            cases += [(long_terms, SAMPLE_DAY), (SAMPLE_TERMS, long_day)]
    return cases


# Days of exactly 65,535 and of 65,536 bytes that would be good but for their length.
def long_days():
    cases = []
    for mark in [b".", b"-", b"+"]:
        for length in [LONGEST - 1, LONGEST, TOO_LONG]:
            for end in [b"\nlots=\n", b"\nlots=1\n", b"\nlots=3,2,1\n", b"\nlots=0\n",
                        b"\nlots=1", b"\nlots=", b"\nlots", b"\nlots=1,\n", b"\nlots=1\n\n"]:
                long_day = fill(b"marks=", mark, length - len(end)) + end
                cases.append((SAMPLE_TERMS, long_day))
    # 65,535 bytes: 32,761 lots behind one mark, and behind no mark.
    ones = b",1" * 32760
    cases.append((LISTED_TERMS, b"marks=.\nlots=1" + ones + b"\n"))
    cases.append((LISTED_TERMS, b"marks=\nlots=10" + ones + b"\n"))
    # 65,536 bytes; this line is long.
    cases.append((LISTED_TERMS, b"marks=+\nlots=10" + ones + b"\n"))
    return cases


# Long texts without line ends; these lines are long, so there are few of them.
def long_lines():
    return [
        (fill(b"offices=", b"1", LONGEST), SAMPLE_DAY),
        (fill(b"offices=", b"1", TOO_LONG), SAMPLE_DAY),
        (SAMPLE_TERMS, fill(b"marks=", b"-", LONGEST)),
        (SAMPLE_TERMS, fill(b"marks=", b"-", TOO_LONG)),
        (SAMPLE_TERMS, fill(b"marks=\nlots=", b"1", LONGEST)),
        (SAMPLE_TERMS, fill(b"marks=", b".", LONGEST - 1) + b","),
    ]


# ---- Damaged texts ----

# A good pair cut off after each of its bytes, one text at a time.
def cut_pairs():
    cases = []
    for good_terms, good_day in [(SAMPLE_TERMS, SAMPLE_DAY), (LISTED_TERMS, LISTED_DAY)]:
        for length in range(len(good_terms)):
            cases.append((good_terms[:length], good_day))
        for length in range(len(good_day)):
            cases.append((good_terms, good_day[:length]))
    return cases


# A good pair with each byte in turn replaced, deleted or doubled.
def changed_bytes():
    cases = []
    for good_terms, good_day in [(SAMPLE_TERMS, SAMPLE_DAY), (LISTED_TERMS, LISTED_DAY)]:
        for text in changed_bytes_of(good_terms):
            cases.append((text, good_day))
        for text in changed_bytes_of(good_day):
            cases.append((good_terms, text))
    return cases


def changed_bytes_of(text):
    texts = []
    for at in range(len(text)):
        before = text[:at]
        byte = text[at:at + 1]
        after = text[at + 1:]
        for other in [b"0", b"e", b"\n", b","]:
            texts.append(before + other + after)
        texts.append(before + after)
        texts.append(before + byte + byte + after)
    return texts


# ---- Random texts ----

# Random good pairs.
def random_good():
    source = source_of(SEED)
    return [random_good_pair(source) for _ in range(RANDOM_GOOD)]


# Random good pairs with one to three random edits.
def random_damaged():
    source = source_of(SEED + 1)
    cases = []
    for _ in range(RANDOM_DAMAGED):
        case_terms, case_day = random_good_pair(source)
        cases.append(random_damage(source, case_terms, case_day))
    return cases


# ---- The table ----

TEXT_GROUPS = [
    good_texts, good_days, limits_of_terms, limits_of_tops, limits_of_divisors,
    seventeenth_divisor, limits_of_lots, specific_cases, numbers_in_terms, numbers_in_day,
    wrong_words, wrong_keys, wrong_marks, ends_of_marks, wrong_lots, many_lots, moved_lines,
    ends_of_texts, faults_in_both, long_texts, both_long, last_bytes_of_long_texts, long_days,
    long_lines, cut_pairs, changed_bytes, random_good, random_damaged,
]


def cases_of(groups):
    """The cases of all groups, in order, each only where it comes first."""
    cases = []
    seen = set()
    for group in groups:
        for case in group():
            if case not in seen:
                seen.add(case)
                cases.append(case)
    return cases


def main():
    groups = TEXT_GROUPS if sys.argv[1:] == ["texts"] else TEXT_GROUPS + PLAYED_GROUPS
    for case_terms, case_day in cases_of(groups):
        sys.stdout.buffer.write(encode_case(case_terms, case_day))


if __name__ == "__main__":
    main()
