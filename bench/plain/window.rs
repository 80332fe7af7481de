// The window: offices count lots, and a coordinator learns by messages over a post when to close.
use crate::ladder::Ladder;
use crate::post::{Post, lane_down, lane_up};

// A message is one byte: 32 times its kind, and the step.
enum Message {
    Signal(u32),
    Start(u32),
    Close(u32),
}

impl Message {
    fn byte(self) -> u8 {
        let (kind, step) = match self {
            Message::Signal(step) => (1, step),
            Message::Start(step) => (2, step),
            Message::Close(step) => (3, step),
        };
        (32 * kind + step) as u8
    }

    fn from_byte(byte: u8) -> Option<Message> {
        let step = u32::from(byte % 32);
        match byte / 32 {
            1 => Some(Message::Signal(step)),
            2 => Some(Message::Start(step)),
            3 => Some(Message::Close(step)),
            _ => None,
        }
    }
}

pub struct Coordinator {
    pub step: u32,
    pub signals: u32,
    pub is_open: bool,
}

#[derive(Clone)]
pub struct Office {
    pub credit: u32,
    pub remainder: u32,
    step: u32,
}

pub struct Window<P> {
    pub post: P,
    pub coordinator: Coordinator,
    pub offices: Vec<Office>,
    ladder: Ladder,
}

// The window is closed, and the lot was not counted.
pub struct Late;

impl<P: Post> Window<P> {
    pub fn open(post: P, offices: usize, ladder: Ladder) -> Self {
        Window {
            post,
            coordinator: Coordinator { step: 1, signals: 0, is_open: true },
            offices: vec![Office { credit: 0, remainder: 0, step: 1 }; offices],
            ladder,
        }
    }

    // A lot at an office, counted from 1, and all the messages that follow.
    pub fn lot(&mut self, office: u32) -> Result<(), Late> {
        if !self.coordinator.is_open {
            return Err(Late);
        }
        let index = office as usize - 1;
        let office = &mut self.offices[index];
        office.remainder += 1;
        if office.remainder == self.ladder.slack(office.step) {
            office.remainder = 0;
            self.send_signals(index, 1);
            while self.post.holds_something() {
                self.turn();
            }
        }
        Ok(())
    }

    fn send_signals(&mut self, office: usize, count: u32) {
        let byte = Message::Signal(self.offices[office].step).byte();
        for _ in 0..count {
            self.post.send(lane_up(office), byte);
        }
    }

    fn turn(&mut self) {
        for office in 0..self.offices.len() {
            while let Some(byte) = self.post.take(lane_up(office)) {
                self.coordinator_hears(office, byte);
            }
        }
        for office in 0..self.offices.len() {
            while let Some(byte) = self.post.take(lane_down(office)) {
                self.office_hears(office, byte);
            }
        }
    }

    fn coordinator_hears(&mut self, office: usize, byte: u8) {
        let Some(Message::Signal(step)) = Message::from_byte(byte) else {
            return;
        };
        if step != self.coordinator.step || !self.coordinator.is_open {
            return;
        }
        self.offices[office].credit += self.ladder.slack(step);
        self.coordinator.signals += 1;
        let quota = self.offices.len() as u32 * (self.ladder.divisor(step) - 1);
        if self.coordinator.signals == quota {
            self.finish_step();
        }
    }

    fn finish_step(&mut self) {
        if self.coordinator.step < self.ladder.steps() {
            self.coordinator.step += 1;
            self.coordinator.signals = 0;
            self.tell_all(Message::Start(self.coordinator.step));
        } else {
            self.coordinator.is_open = false;
            self.tell_all(Message::Close(self.coordinator.step));
        }
    }

    fn tell_all(&mut self, message: Message) {
        let byte = message.byte();
        for office in 0..self.offices.len() {
            self.post.send(lane_down(office), byte);
        }
    }

    fn office_hears(&mut self, index: usize, byte: u8) {
        let office = &mut self.offices[index];
        if let Some(Message::Start(step)) = Message::from_byte(byte)
            && step == office.step + 1
        {
            let slack = self.ladder.slack(step);
            let signals = office.remainder / slack;
            office.step = step;
            office.remainder %= slack;
            self.send_signals(index, signals);
        }
    }
}
