# The window: a coordinator and its offices, which count lots as docs/RULES.md tells it.

from carriers import lane_down, lane_up

# What a lot is answered with: accepted, or the number of a refusal.
ACCEPTED = 0
NO_SUCH_OFFICE = 1
WINDOW_CLOSED = 2
POST_USED = 5

SIGNAL = 1
START = 2
CLOSE = 3


def message(kind, step):
    """The byte of a message."""
    return 32 * kind + step


class Coordinator:
    """What the coordinator keeps."""

    def __init__(self, offices):
        self.step = 1
        self.signals = 0
        self.window_is_open = True
        # The credit of office 1 comes first.
        self.credits = [0] * offices


class Office:
    """What one office keeps; offices are numbered from 1."""

    def __init__(self, number):
        self.number = number
        self.step = 1
        self.remainder = 0


class Window:
    """Counts lots on a ladder; its messages travel over a post."""

    def __init__(self, ladder, post):
        self.ladder = ladder
        self.post = post
        self.post_was_used = post.message_count() > 0
        self.coordinator = Coordinator(post.offices)
        self.offices = [Office(number) for number in range(1, post.offices + 1)]
        self.messages_passed_over = 0

    def lot(self, number):
        """One lot at the office of this number; returns ACCEPTED or a refusal."""
        if self.post_was_used:
            return POST_USED
        if number < 1 or number > len(self.offices):
            return NO_SUCH_OFFICE
        if not self.coordinator.window_is_open:
            return WINDOW_CLOSED
        self.count_lot(self.offices[number - 1])
        while self.post.holds_something():
            self.turn()
        return ACCEPTED

    def count_lot(self, office):
        office.remainder += 1
        if office.remainder == self.ladder.slack(office.step):
            office.remainder = 0
            self.send_signal(office)

    def send_signal(self, office):
        self.post.send(lane_up(office.number), message(SIGNAL, office.step))

    def turn(self):
        for office in self.offices:
            byte = self.post.take(lane_up(office.number))
            while byte is not None:
                self.coordinator_hears(office.number, byte)
                byte = self.post.take(lane_up(office.number))
        for office in self.offices:
            byte = self.post.take(lane_down(office.number))
            while byte is not None:
                self.office_hears(office, byte)
                byte = self.post.take(lane_down(office.number))

    def coordinator_hears(self, number, byte):
        coordinator = self.coordinator
        if byte != message(SIGNAL, coordinator.step) or not coordinator.window_is_open:
            self.messages_passed_over += 1
            return
        coordinator.credits[number - 1] += self.ladder.slack(coordinator.step)
        coordinator.signals += 1
        divisor = self.ladder.divisor(coordinator.step)
        if coordinator.signals == len(self.offices) * (divisor - 1):
            self.finish_step()

    def finish_step(self):
        coordinator = self.coordinator
        if coordinator.step < self.ladder.steps():
            coordinator.step += 1
            coordinator.signals = 0
            self.send_to_all(message(START, coordinator.step))
        else:
            coordinator.window_is_open = False
            self.send_to_all(message(CLOSE, coordinator.step))

    def send_to_all(self, byte):
        for office in self.offices:
            self.post.send(lane_down(office.number), byte)

    def office_hears(self, office, byte):
        if byte == message(START, office.step + 1):
            self.office_moves_on(office)
        elif byte != message(CLOSE, self.ladder.steps()):
            self.messages_passed_over += 1

    def office_moves_on(self, office):
        office.step += 1
        slack = self.ladder.slack(office.step)
        whole_slacks = office.remainder // slack
        office.remainder = office.remainder % slack
        for _ in range(whole_slacks):
            self.send_signal(office)
