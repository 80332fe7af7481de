# Gives the summary of a pair of texts, terms and day: what they say in short, or the first fault.
#
# As a program it reads a table of cases on standard input and writes the summaries
# to standard output, each followed by one empty line.

from answers import answer_by, answer_table


def told_in_short(terms, _, good_day):
    """The terms as they stand, and how many marks and lots there are."""
    marks = b"marks=" + str(len(good_day.marks)).encode() + b"\n"
    lots = b"lots=" + str(len(good_day.lots)).encode() + b"\n"
    return terms + marks + lots


def summary(terms, day):
    """What the two texts say, or the lines of their first fault."""
    return answer_by(told_in_short, terms, day)


if __name__ == "__main__":
    answer_table(summary)
