# The posts and the marked wire, as docs/POSTS.md tells them.

from internal_error import InternalError, must_hold

MOST_WAITING = 16
MOST_SENT = 65535
MOST_PLACES_BEFORE_PUT = 14

# The values of a data frame and of an acknowledgement.
BIT_VALUE = 256
ACKNOWLEDGEMENT_VALUE = 512

CARRIED_ONCE = ord(".")
LOST = ord("-")
CARRIED_TWICE = ord("+")


def lane_up(office):
    """The lane on which this office, counted from 1, sends to the coordinator."""
    return 2 * office - 2


def lane_down(office):
    """The lane on which this office, counted from 1, hears from the coordinator."""
    return 2 * office - 1


def other_lane(lane):
    """The other lane of the same office."""
    if lane % 2 == 0:
        return lane + 1
    return lane - 1


class Post:
    """What every post keeps: for each lane the bytes that wait and how many were sent."""

    def __init__(self, offices):
        self.offices = offices
        self.waiting = [[] for _ in range(2 * offices)]
        self.sent = [0] * (2 * offices)

    def send(self, lane, byte):
        must_hold(0 <= lane < 2 * self.offices, "refusal 1: no such lane of the post")
        must_hold(self.sent[lane] < MOST_SENT, "refusal 4: all bytes of the lane were sent")
        must_hold(len(self.waiting[lane]) < MOST_WAITING, "refusal 3: sixteen bytes wait")
        self.carry(lane, byte)
        self.sent[lane] += 1

    def carry(self, lane, byte):
        raise InternalError("each kind of post says how it carries a byte")

    def take(self, lane):
        """The first byte that waits on the lane, which leaves; or None."""
        must_hold(0 <= lane < 2 * self.offices, "refusal 1: no such lane of the post")
        if len(self.waiting[lane]) == 0:
            return None
        return self.waiting[lane].pop(0)

    def holds_something(self):
        """Whether a byte waits on any lane."""
        for bytes_of_lane in self.waiting:
            if len(bytes_of_lane) > 0:
                return True
        return False

    def message_count(self):
        return sum(self.sent)


class DirectPost(Post):
    """A byte that is sent joins its lane at once."""

    frame_count = 0

    def carry(self, lane, byte):
        self.waiting[lane].append(byte)


class MarkedWire:
    """Carries frames; one mark for each put says what becomes of the frame."""

    def __init__(self, offices, marks):
        self.offices = offices
        self.marks = marks
        self.marks_read = 0
        self.frames = [[] for _ in range(2 * offices)]

    def troubles_left(self):
        unread = self.marks[self.marks_read:]
        return unread.count(LOST) + unread.count(CARRIED_TWICE)

    def next_mark(self):
        if self.marks_read == len(self.marks):
            return CARRIED_ONCE
        self.marks_read += 1
        return self.marks[self.marks_read - 1]

    def put(self, lane, frame):
        must_hold(0 <= lane < 2 * self.offices, "refusal 1: no such lane of the wire")
        must_hold(len(self.frames[lane]) <= MOST_PLACES_BEFORE_PUT,
                  "refusal 6: more than 14 places are taken")
        mark = self.next_mark()
        if mark == CARRIED_ONCE:
            self.frames[lane].append(frame)
        elif mark == CARRIED_TWICE:
            self.frames[lane].append(frame)
            self.frames[lane].append(frame)
        else:
            must_hold(mark == LOST, "a byte among the marks is no mark")

    def take(self, lane):
        """The first frame that waits on the lane, which leaves; or None."""
        must_hold(0 <= lane < 2 * self.offices, "refusal 1: no such lane of the wire")
        if len(self.frames[lane]) == 0:
            return None
        return self.frames[lane].pop(0)


class BitPost(Post):
    """The alternating bit protocol over a wire."""

    def __init__(self, wire):
        super().__init__(wire.offices)
        self.wire = wire
        self.sending_bit = [0] * (2 * wire.offices)
        self.expected_bit = [0] * (2 * wire.offices)
        self.frame_count = 0
        for lane in range(2 * wire.offices):
            self.drop_frames(lane)
        self.troubles_at_first = wire.troubles_left()

    def troubles_used(self):
        return self.troubles_at_first - self.wire.troubles_left()

    def drop_frames(self, lane):
        while self.wire.take(lane) is not None:
            pass

    def put(self, lane, frame):
        self.wire.put(lane, frame)
        self.frame_count += 1

    def carry(self, lane, byte):
        self.drop_frames(lane)
        self.drop_frames(other_lane(lane))
        while not self.attempt(lane, byte):
            pass
        must_hold(self.sending_bit[lane] == self.expected_bit[lane],
                  "between calls the two bits of a lane agree")

    def attempt(self, lane, byte):
        """One attempt to send the byte; returns whether it was acknowledged."""
        self.put(lane, byte + BIT_VALUE * self.sending_bit[lane])
        self.far_end_takes_frames(lane)
        return self.sender_takes_frames(lane)

    def far_end_takes_frames(self, lane):
        frame = self.wire.take(lane)
        while frame is not None:
            if frame < ACKNOWLEDGEMENT_VALUE:
                self.far_end_takes_data(lane, frame % BIT_VALUE, frame // BIT_VALUE)
            frame = self.wire.take(lane)

    def far_end_takes_data(self, lane, byte, bit):
        if bit == self.expected_bit[lane]:
            self.waiting[lane].append(byte)
            self.expected_bit[lane] = 1 - self.expected_bit[lane]
        self.put(other_lane(lane), ACKNOWLEDGEMENT_VALUE + BIT_VALUE * bit)

    def sender_takes_frames(self, lane):
        wanted = ACKNOWLEDGEMENT_VALUE + BIT_VALUE * self.sending_bit[lane]
        acknowledged = False
        frame = self.wire.take(other_lane(lane))
        while frame is not None:
            if frame == wanted:
                acknowledged = True
            frame = self.wire.take(other_lane(lane))
        if acknowledged:
            self.sending_bit[lane] = 1 - self.sending_bit[lane]
        return acknowledged
