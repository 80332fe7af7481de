# Gives the answer to a pair of texts, terms and day: the report of the day, or the first fault.
#
# As a program it reads a table of cases on standard input and writes the answers
# to standard output, each followed by one empty line.

import sys

from carriers import BitPost, DirectPost, MarkedWire
from closed_forms import check_books, check_closing_lot, check_frames
from internal_error import must_hold
from table import decode_table
from texts import DIRECT, Fault, line_of, read_both
from window import ACCEPTED, WINDOW_CLOSED, Window

MOST_BYTES_READ = 65536


class PlayedDay:
    """A window after all lots of a day, with what was counted beside it."""

    def __init__(self, window):
        self.window = window
        # The accepted lots of each office, office 1 first.
        self.totals = [0] * len(window.offices)
        self.accepted = 0
        self.late = 0
        self.closing_lot = None
        self.office_of_closing_lot = None

    def lot(self, office):
        outcome = self.window.lot(office)
        if outcome == ACCEPTED:
            self.accepted += 1
            self.totals[office - 1] += 1
            if not self.window.coordinator.window_is_open:
                self.closing_lot = self.accepted
                self.office_of_closing_lot = office
        else:
            must_hold(outcome == WINDOW_CLOSED, "a lot is refused with 2 or not at all")
            self.late += 1


def new_post(terms, marks):
    """The post that the terms name; under a direct post the marks have no effect."""
    if terms.post == DIRECT:
        return DirectPost(terms.offices)
    return BitPost(MarkedWire(terms.offices, marks))


def play(terms, day):
    """Plays all lots of the day by the rules, and checks what comes of them."""
    played = PlayedDay(Window(terms.ladder, new_post(terms, day.marks)))
    for office in day.lots:
        played.lot(office)
    check_books(played.window, played.totals)
    check_frames(played.window.post)
    if played.closing_lot is not None:
        check_closing_lot(terms.ladder, played.totals, played.office_of_closing_lot)
    return played


def report(played):
    """The nine lines of the report."""
    coordinator = played.window.coordinator
    post = played.window.post
    closed = "no"
    if played.closing_lot is not None:
        closed = str(played.closing_lot)
    lines = [
        "closed=" + closed,
        "step=" + str(coordinator.step),
        "signals=" + str(coordinator.signals),
        "messages=" + str(post.message_count()),
        "frames=" + str(post.frame_count),
        "accepted=" + str(played.accepted),
        "late=" + str(played.late),
        "credits=" + ",".join(str(credit) for credit in coordinator.credits),
        "remainders=" + ",".join(str(office.remainder) for office in played.window.offices),
    ]
    return "".join(line + "\n" for line in lines).encode("ascii")


def fault_answer(fault, text):
    """The four lines of a fault; `text` is the one that the fault's layer names."""
    answer_lines = b"fault=" + str(fault.refusal).encode() + b"\n"
    answer_lines += b"layer=" + fault.layer.encode() + b"\n"
    answer_lines += b"place=" + str(fault.place).encode() + b"\n"
    answer_lines += b"line=" + line_of(text, fault.place) + b"\n"
    return answer_lines


def answer_by(told, terms, day):
    """What is told of two good texts, given the terms as bytes and both as they are read; else the fault."""
    # The program never sees more than this many bytes of a text.
    terms = terms[:MOST_BYTES_READ]
    day = day[:MOST_BYTES_READ]
    try:
        good_terms, good_day = read_both(terms, day)
    except Fault as fault:
        if fault.layer == "terms":
            return fault_answer(fault, terms)
        return fault_answer(fault, day)
    return told(terms, good_terms, good_day)


def answer(terms, day):
    """The report of the day, or the first fault."""
    return answer_by(lambda _, good_terms, good_day: report(play(good_terms, good_day)), terms, day)


def answer_table(answer_of):
    """Answers the table on standard input, each answer followed by one empty line."""
    for terms, day in decode_table(sys.stdin.buffer.read()):
        sys.stdout.buffer.write(answer_of(terms, day))
        sys.stdout.buffer.write(b"\n")


if __name__ == "__main__":
    answer_table(answer)
