// A wire that carries frames of 16 bits; one mark for each frame put tells what becomes of it.
use std::collections::VecDeque;

pub struct MarkedWire<'a> {
    lanes: Vec<VecDeque<u16>>,
    marks: std::slice::Iter<'a, u8>,
}

impl<'a> MarkedWire<'a> {
    pub fn new(offices: usize, marks: &'a [u8]) -> Self {
        MarkedWire { lanes: vec![VecDeque::new(); 2 * offices], marks: marks.iter() }
    }

    pub fn put(&mut self, lane: usize, frame: u16) {
        let times = match self.marks.next() {
            Some(b'-') => 0,
            Some(b'+') => 2,
            _ => 1,
        };
        for _ in 0..times {
            self.lanes[lane].push_back(frame);
        }
    }

    pub fn take(&mut self, lane: usize) -> Option<u16> {
        self.lanes[lane].pop_front()
    }

    pub fn clear(&mut self, lane: usize) {
        self.lanes[lane].clear();
    }
}
