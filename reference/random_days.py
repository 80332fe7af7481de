# Compares a built program with the reference program on random pairs of texts.
#
# usage: python3 reference/random_days.py PROGRAM COUNT [SEED]

import os
import subprocess
import sys
import tempfile

from answers import answer
from building import below, random_damage, random_day, random_good_pair, source_of

LONGEST_WAIT_SECONDS = 60


def random_pair(source):
    """Good texts mostly; of six pairs about one is damaged."""
    kind = below(source, 12)
    if kind < 9:
        return random_day(source)
    if kind == 9:
        return random_good_pair(source)
    case_terms, case_day = random_day(source, most_lots=30)
    return random_damage(source, case_terms, case_day)


def write_text(folder, name, text):
    with open(os.path.join(folder, name), "wb") as file:
        file.write(text)


def run_program(program, folder, case_terms, case_day):
    """The exit status and what goes to standard output in a folder with these two texts."""
    write_text(folder, "terms.txt", case_terms)
    write_text(folder, "day.txt", case_day)
    try:
        ended = subprocess.run([program], cwd=folder, stdin=subprocess.DEVNULL,
                               stdout=subprocess.PIPE, timeout=LONGEST_WAIT_SECONDS)
    except subprocess.TimeoutExpired:
        return "none, because it did not end in time", b""
    return ended.returncode, ended.stdout


def show(title, text):
    """Prints a text so that each of its bytes can be read off."""
    print(title)
    for line in text.splitlines(keepends=True):
        print("    " + repr(line)[1:])


def show_difference(number, pair, expected, status, printed):
    print("pair {} differs; the exit status is {}".format(number, status))
    show("terms.txt:", pair[0])
    show("day.txt:", pair[1])
    show("the reference program answers:", expected)
    show("the program prints:", printed)


def compare(program, count, source):
    """Runs all pairs; shows the first difference; returns how many agreed."""
    agreed = 0
    with tempfile.TemporaryDirectory() as folder:
        for number in range(1, count + 1):
            pair = random_pair(source)
            expected = answer(pair[0], pair[1])
            status, printed = run_program(program, folder, pair[0], pair[1])
            if status == 0 and printed == expected:
                agreed += 1
            elif agreed == number - 1:
                show_difference(number, pair, expected, status, printed)
    return agreed


def main(arguments):
    if len(arguments) not in [2, 3]:
        print("usage: python3 reference/random_days.py PROGRAM COUNT [SEED]", file=sys.stderr)
        return 2
    program = os.path.abspath(arguments[0])
    count = int(arguments[1])
    seed = int.from_bytes(os.urandom(4), "big")
    if len(arguments) == 3:
        seed = int(arguments[2])
    print("seed {}".format(seed), flush=True)
    agreed = compare(program, count, source_of(seed))
    print("{} passed, {} failed".format(agreed, count - agreed))
    return 0 if agreed == count else 1


if __name__ == "__main__":
    sys.exit(main(sys.argv[1:]))
