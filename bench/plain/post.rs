// A post: lanes on which bytes wait between the coordinator and the offices; and the post that delivers at once.
use std::collections::VecDeque;

// Offices are counted from 0 here.
pub fn lane_up(office: usize) -> usize {
    2 * office
}

pub fn lane_down(office: usize) -> usize {
    2 * office + 1
}

#[derive(Clone, Default)]
pub struct Lane {
    pub waiting: VecDeque<u8>,
    pub sent: u32,
}

pub trait Post {
    fn lanes(&self) -> &[Lane];

    fn send(&mut self, lane: usize, byte: u8);

    // The first byte that waits on the lane leaves it.
    fn take(&mut self, lane: usize) -> Option<u8>;

    // The frames put on the wire under the post.
    fn frames(&self) -> u64;

    fn holds_something(&self) -> bool {
        self.lanes().iter().any(|lane| !lane.waiting.is_empty())
    }

    fn messages(&self) -> u32 {
        self.lanes().iter().map(|lane| lane.sent).sum()
    }
}

pub struct DirectPost {
    lanes: Vec<Lane>,
}

impl DirectPost {
    pub fn new(offices: usize) -> Self {
        DirectPost { lanes: vec![Lane::default(); 2 * offices] }
    }
}

impl Post for DirectPost {
    fn lanes(&self) -> &[Lane] {
        &self.lanes
    }

    fn send(&mut self, lane: usize, byte: u8) {
        let lane = &mut self.lanes[lane];
        lane.waiting.push_back(byte);
        lane.sent += 1;
    }

    fn take(&mut self, lane: usize) -> Option<u8> {
        self.lanes[lane].waiting.pop_front()
    }

    fn frames(&self) -> u64 {
        0
    }
}
