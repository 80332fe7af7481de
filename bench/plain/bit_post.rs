// The post that carries each byte over a marked wire by the alternating bit protocol.
use crate::post::{Lane, Post};
use crate::wire::MarkedWire;

#[derive(Clone, Copy, PartialEq)]
enum Frame {
    Data { bit: bool, byte: u8 },
    Acknowledgement { bit: bool },
}

impl Frame {
    fn number(self) -> u16 {
        match self {
            Frame::Data { bit, byte } => u16::from(byte) + 256 * u16::from(bit),
            Frame::Acknowledgement { bit } => 512 + 256 * u16::from(bit),
        }
    }

    fn from_number(number: u16) -> Option<Frame> {
        match number {
            0..=511 => Some(Frame::Data { bit: number >= 256, byte: (number % 256) as u8 }),
            512 | 768 => Some(Frame::Acknowledgement { bit: number == 768 }),
            _ => None,
        }
    }
}

#[derive(Clone, Copy, Default)]
struct Bits {
    sending: bool,
    expected: bool,
}

pub struct BitPost<'a> {
    wire: MarkedWire<'a>,
    lanes: Vec<Lane>,
    bits: Vec<Bits>,
    frames: u64,
}

// The other lane of the same office.
fn other_lane(lane: usize) -> usize {
    lane ^ 1
}

impl<'a> BitPost<'a> {
    pub fn new(offices: usize, marks: &'a [u8]) -> Self {
        BitPost {
            wire: MarkedWire::new(offices, marks),
            lanes: vec![Lane::default(); 2 * offices],
            bits: vec![Bits::default(); 2 * offices],
            frames: 0,
        }
    }

    fn put(&mut self, lane: usize, frame: Frame) {
        self.wire.put(lane, frame.number());
        self.frames += 1;
    }

    // The far end takes all frames of the lane: it delivers what it expects, and acknowledges each data frame.
    fn far_end_takes(&mut self, lane: usize) {
        while let Some(number) = self.wire.take(lane) {
            if let Some(Frame::Data { bit, byte }) = Frame::from_number(number) {
                if bit == self.bits[lane].expected {
                    self.lanes[lane].waiting.push_back(byte);
                    self.bits[lane].expected = !bit;
                }
                self.put(other_lane(lane), Frame::Acknowledgement { bit });
            }
        }
    }

    // One attempt to send the byte; tells whether it was acknowledged.
    fn attempt(&mut self, lane: usize, byte: u8) -> bool {
        let bit = self.bits[lane].sending;
        self.put(lane, Frame::Data { bit, byte });
        self.far_end_takes(lane);
        let wanted = Frame::Acknowledgement { bit }.number();
        let mut acknowledged = false;
        while let Some(number) = self.wire.take(other_lane(lane)) {
            acknowledged |= number == wanted;
        }
        acknowledged
    }
}

impl Post for BitPost<'_> {
    fn lanes(&self) -> &[Lane] {
        &self.lanes
    }

    fn send(&mut self, lane: usize, byte: u8) {
        self.wire.clear(lane);
        self.wire.clear(other_lane(lane));
        while !self.attempt(lane, byte) {}
        self.bits[lane].sending = !self.bits[lane].sending;
        self.lanes[lane].sent += 1;
    }

    fn take(&mut self, lane: usize) -> Option<u8> {
        self.lanes[lane].waiting.pop_front()
    }

    fn frames(&self) -> u64 {
        self.frames
    }
}
