# Tests of the reference program: every example and worked day that the documents give.
#
# usage: python3 reference/test_reference.py

import sys
import traceback

from answers import answer, play
from building import below, day, lots_of, random_day, shuffled, source_of, terms
from carriers import BitPost, DirectPost, MarkedWire, lane_down, lane_up
from cases import SAMPLE_DAY, SAMPLE_TERMS
from closed_forms import Figures, check_books, frames_for
from internal_error import InternalError
from ladders import halving_ladder, listed_ladder
from summaries import summary
from table import decode_case, encode_case
from texts import Day, Terms, read_both
from window import ACCEPTED, NO_SUCH_OFFICE, POST_USED, WINDOW_CLOSED, Window


# ---- Helpers of the tests ----

def played(offices, grain, ladder, lots, post="direct", marks=""):
    """The day of these values, played."""
    text_of_lots = ",".join(str(office) for office in lots)
    good_terms, good_day = read_both(terms(str(offices), str(grain), ladder, post),
                                     day(marks, text_of_lots))
    return play(good_terms, good_day)


def remainders(window):
    return [office.remainder for office in window.offices]


def check_open_at_step_two(window, signals, messages, credits, remainders_left):
    assert window.coordinator.window_is_open
    assert window.coordinator.step == 2 and window.coordinator.signals == signals
    assert window.post.message_count() == messages
    assert window.coordinator.credits == credits
    assert remainders(window) == remainders_left


def raises_internal_error(call):
    try:
        call()
    except InternalError:
        return True
    return False


def frames_of_one_send(marks, bytes_sent):
    """The frames put on the wire, and the bytes that wait, after these bytes on lane 0."""
    post = BitPost(MarkedWire(1, marks))
    frames = []
    put_on_wire = post.wire.put

    def put_and_remember(lane, frame):
        frames.append(frame)
        put_on_wire(lane, frame)

    post.wire.put = put_and_remember
    for byte in bytes_sent:
        post.send(0, byte)
    return frames, post.waiting[0]


# ---- FORMATS.md ----

def test_sample_of_formats():
    expected = (b"closed=9\nstep=2\nsignals=3\nmessages=12\nframes=26\naccepted=9\nlate=1\n"
                b"credits=6,2,1\nremainders=0,0,0\n")
    assert answer(b"offices=3\ngrain=1\nladder=halving/2\npost=bit\n",
                  b"marks=-+\nlots=1,1,1,1,1,1,2,2,3,3\n") == expected


def test_fault_of_formats():
    expected = b"fault=11\nlayer=terms\nplace=8\nline=offices=65\n"
    assert answer(terms(offices="65"), day()) == expected


def test_words_of_formats():
    expected = b"fault=12\nlayer=terms\nplace=25\nline=ladder=halving2\n"
    assert answer(terms(ladder="halving2"), day()) == expected
    expected = b"fault=9\nlayer=terms\nplace=43\nline=post=bitten\n"
    assert answer(terms(post="bitten"), day()) == expected


def test_lots_at_the_end_of_the_text():
    expected = b"fault=10\nlayer=day\nplace=12\nline=lots=\n"
    assert answer(terms(), b"marks=\nlots=") == expected


def test_day_too_long_is_told_before_a_fault_of_the_terms():
    expected = b"fault=8\nlayer=day\nplace=65535\nline=\n"
    assert answer(b"x", b"\n" * 65536) == expected
    expected = b"fault=8\nlayer=terms\nplace=65535\nline=\n"
    assert answer(b"\n" * 65536, b"\n" * 65536) == expected


def told(case_terms, case_day):
    """The first three lines of a fault, as refusal, layer and place; none for good texts."""
    lines = answer(case_terms, case_day).split(b"\n")
    if not lines[0].startswith(b"fault="):
        return None
    refusal, layer, place = [line.partition(b"=")[2] for line in lines[:3]]
    return int(refusal), layer.decode(), int(place)


def test_faults_worked_through():
    high = terms(offices="1", grain="8388608", ladder="halving/1")
    for case_terms, case_day, expected in [
            (terms(offices="64"), day(), None),
            (terms(offices="65"), day(), (11, "terms", 8)),
            (high, day(lots=""), None),
            (high.replace(b"halving/1", b"halving/2"), day(lots=""), (11, "terms", 39)),
            (terms().replace(b"3\n", b"3\r\n"), day(), (9, "terms", 9)),
            (b"", day(), (9, "terms", 0)),
            (b"offices=3\ngrain=1\nladder=", day(), (12, "terms", 25)),
            (terms(ladder="halving/2,3"), day(), (9, "terms", 34)),
            (terms(ladder="listed/4,"), day(), (10, "terms", 34)),
            (terms() + b"\n", day(), (14, "terms", 44)),
            (terms(), b"marks=\nlots=1,0\n", (1, "day", 14)),
            (terms(offices="7"), b"marks=\nlots=007\n", (10, "day", 12)),
            (terms(), b"marks=\nlots=", (10, "day", 12)),
            (terms(), b"marks=..", (9, "day", 8)),
            (terms(offices="65"), b"x" * 65536, (8, "day", 65535)),
    ]:
        assert told(case_terms, case_day) == expected


def test_day_without_lots():
    expected = (b"closed=no\nstep=1\nsignals=0\nmessages=0\nframes=0\naccepted=0\nlate=0\n"
                b"credits=0,0,0\nremainders=0,0,0\n")
    assert answer(terms(), day("-", "")) == expected


# ---- LADDERS.md ----

def test_ladders():
    assert halving_ladder(5, 3).slacks == [40, 20, 10, 5]
    assert listed_ladder(5, [3, 2]).slacks == [30, 10, 5]
    assert listed_ladder(5, [3, 2, 2]).slacks == [60, 20, 10, 5]
    assert halving_ladder(5, 2).slacks == [20, 10, 5]
    assert [listed_ladder(5, [3, 2]).divisor(step) for step in [1, 2]] == [3, 2]
    assert raises_internal_error(lambda: halving_ladder(1, 2).slack(3))


# ---- POSTS.md ----

def test_worked_sends():
    assert frames_of_one_send(b"-+", [33]) == ([33, 33, 512, 512], [33])
    assert frames_of_one_send(b".-", [33]) == ([33, 512, 33, 512], [33])
    assert frames_of_one_send(b"", [33, 33]) == ([33, 512, 289, 768], [33, 33])


def test_sixteen_bytes_wait():
    for post in [DirectPost(2), BitPost(MarkedWire(2, b""))]:
        for _ in range(16):
            post.send(3, 65)
        assert raises_internal_error(lambda: post.send(3, 65))
        assert post.take(3) == 65
        post.send(3, 65)


def test_all_bytes_of_a_lane_sent():
    post = DirectPost(1)
    for _ in range(65535):
        post.send(0, 33)
        assert post.take(0) == 33
    assert raises_internal_error(lambda: post.send(0, 33))


def test_more_than_fourteen_places_taken():
    wire = MarkedWire(1, b"")
    for _ in range(15):
        wire.put(0, 33)
    assert raises_internal_error(lambda: wire.put(0, 33))


def test_lanes():
    assert [lane_up(1), lane_down(1), lane_up(64), lane_down(64)] == [0, 1, 126, 127]
    assert DirectPost(1).take(0) is None
    assert raises_internal_error(lambda: DirectPost(1).take(2))


def test_each_byte_is_delivered_once_and_in_order():
    source = source_of(3)
    for _ in range(300):
        marks = bytes(b".-+"[below(source, 3)] for _ in range(below(source, 60)))
        post = BitPost(MarkedWire(2, marks))
        sent = [33 + below(source, 80) for _ in range(12)]
        lanes = [below(source, 4) for _ in range(12)]
        for lane, byte in zip(lanes, sent):
            post.send(lane, byte)
        for lane in range(4):
            assert post.waiting[lane] == [byte for at, byte in zip(lanes, sent) if at == lane]
        assert 24 <= post.frame_count <= 24 + 2 * post.troubles_used()
        assert post.frame_count == frames_for(marks, 12)


# ---- RULES.md: a lot ----

def test_refusals_of_a_lot_in_their_order():
    used = DirectPost(1)
    used.send(0, 33)
    used.take(0)
    assert Window(halving_ladder(1, 1), used).lot(0) == POST_USED
    window = Window(halving_ladder(1, 1), DirectPost(1))
    assert window.lot(0) == NO_SUCH_OFFICE
    assert window.lot(2) == NO_SUCH_OFFICE
    assert window.lot(1) == ACCEPTED
    assert window.lot(2) == NO_SUCH_OFFICE
    assert window.lot(1) == WINDOW_CLOSED
    assert window.post.message_count() == 2


# ---- RULES.md: the worked days ----

def test_first_worked_day():
    first = played(1, 1, "halving/1", [1])
    assert first.closing_lot == 1 and first.window.post.message_count() == 2
    both = played(1, 1, "halving/1", [1, 1])
    assert both.closing_lot == 1 and both.late == 1 and both.accepted == 1
    assert both.window.post.message_count() == 2


def test_second_worked_day():
    after = played(2, 2, "halving/2", lots_of([7, 6]))
    assert after.closing_lot == 13
    assert after.window.coordinator.credits == [6, 6]
    assert remainders(after.window) == [1, 0]
    assert after.window.post.message_count() == 8


def test_third_worked_day():
    for lots in [[1] * 7 + [2] * 5, [2] * 5 + [1] * 7]:
        window = played(2, 2, "halving/2", lots).window
        check_open_at_step_two(window, 1, 5, [6, 4], [1, 1])


def test_fourth_worked_day():
    window = played(2, 1, "halving/3", [2] * 3 + [1] * 8).window
    check_open_at_step_two(window, 1, 5, [8, 2], [0, 1])


def test_fifth_worked_day():
    for lots in [[1] * 10, [1, 2] * 5]:
        after = played(2, 1, "listed/3,2", lots)
        assert after.closing_lot == 10
        assert after.window.post.message_count() == 10


def test_day_of_three_signals_at_a_start():
    window = played(2, 1, "listed/2,4", [2] * 3 + [1] * 8).window
    check_open_at_step_two(window, 3, 7, [8, 3], [0, 0])


# ---- RULES.md: what follows from the accepted lots alone ----

def random_terms_and_lots(source):
    """Terms as an object, and lots that often go past the closing of the window."""
    offices = 1 + below(source, 4)
    grain = 1 + below(source, 4)
    divisors = [2 + below(source, 4) for _ in range(1 + below(source, 3))]
    ladder = listed_ladder(grain, divisors)
    lots = [1 + below(source, offices) for _ in range(below(source, 2 * offices * ladder.top()))]
    return Terms(offices, ladder, b"direct"), lots


def test_closed_forms_after_every_lot():
    source = source_of(1)
    closed = 0
    for _ in range(300):
        case_terms, lots = random_terms_and_lots(source)
        window = Window(case_terms.ladder, DirectPost(case_terms.offices))
        totals = [0] * case_terms.offices
        for office in lots[:400]:
            if window.lot(office) == ACCEPTED:
                totals[office - 1] += 1
            check_books(window, totals)
        closed += not window.coordinator.window_is_open
    assert 50 < closed < 300


def books(window):
    coordinator = window.coordinator
    return (coordinator.step, coordinator.signals, coordinator.window_is_open,
            window.post.message_count(), coordinator.credits, remainders(window))


def test_order_does_not_matter():
    source = source_of(2)
    compared = 0
    for _ in range(100):
        case_terms, lots = random_terms_and_lots(source)
        first = play(case_terms, Day(b"", lots))
        # The accepted lots alone, in other orders; some orders close the window earlier.
        accepted = lots_of(first.totals)
        for order in [accepted, accepted[::-1], shuffled(source, accepted)]:
            again = play(case_terms, Day(b"", order))
            if again.late == 0:
                assert again.totals == first.totals
                assert books(again.window) == books(first.window)
                compared += 1
            else:
                assert books(again.window) != books(first.window)
    assert compared > 200


def test_check_notices_wrong_figures():
    for change in ["step", "signals", "window_is_open", "credits"]:
        after = played(2, 2, "halving/2", lots_of([7, 5]))
        setattr(after.window.coordinator, change, 0)
        assert raises_internal_error(lambda: check_books(after.window, after.totals))
    after = played(2, 2, "halving/2", lots_of([7, 5]))
    after.window.offices[1].remainder = 0
    assert raises_internal_error(lambda: check_books(after.window, after.totals))


def test_most_lots_above_the_ceiling():
    # Three offices, grain 5: the ceiling is 15, and 2 x 4 lots above it are accepted.
    after = played(3, 5, "halving/1", [2] * 4 + [3] * 4 + [1] * 16)
    assert after.closing_lot == 23 and after.late == 1
    assert Figures(after.window.ladder, after.totals).closed


def test_marks_change_only_the_frames():
    source = source_of(4)
    for _ in range(60):
        case_terms, case_day = random_day(source)
        marks_line, lots_line = case_day.split(b"\n")[:2]
        reports = []
        for marks in [marks_line, b"marks=", b"marks=" + b"-+" * 20]:
            lines = answer(case_terms, marks + b"\n" + lots_line + b"\n").split(b"\n")
            reports.append(lines[:4] + lines[5:])
        assert reports[0] == reports[1] == reports[2]


# ---- What two texts say ----

def test_summary_counts_marks_and_lots():
    expected = b"offices=3\ngrain=1\nladder=halving/2\npost=bit\nmarks=2\nlots=10\n"
    assert summary(SAMPLE_TERMS, SAMPLE_DAY) == expected
    assert summary(SAMPLE_TERMS, b"marks=\nlots=1,0\n") == answer(SAMPLE_TERMS, b"marks=\nlots=1,0\n")


# ---- The table ----

def test_table_gives_back_its_texts():
    for text in [b"", b"\n", b"marks=" + b"-" * 1000 + b"\nlots=\\ \r\t\x00\xff\n", b"\n" * 65536]:
        line = encode_case(text, text + b"x")
        assert line[-1:] == b"\n" and decode_case(line[:-1]) == (text, text + b"x")


# ---- Running them ----

def main():
    tests = [(name, test) for name, test in globals().items() if name.startswith("test_")]
    passed = 0
    failed = 0
    for name, test in tests:
        try:
            test()
            passed += 1
        except Exception:
            failed += 1
            print("failed: " + name)
            traceback.print_exc(file=sys.stdout)
    print("{} passed, {} failed".format(passed, failed))
    return 1 if failed > 0 else 0


if __name__ == "__main__":
    sys.exit(main())
