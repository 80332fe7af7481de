// A ladder: the slack of each step, from step 0 to the last.
pub const MOST_STEPS: usize = 16;
pub const HIGHEST_TOP: u32 = 16_777_216;

pub struct Ladder {
    slacks: Vec<u32>,
}

impl Ladder {
    // The grain is the last slack; each slack before it is a divisor times the one after it.
    pub fn new(grain: u32, divisors: &[u32]) -> Self {
        let mut slacks = vec![grain];
        let mut slack = grain;
        for divisor in divisors.iter().rev() {
            slack *= divisor;
            slacks.push(slack);
        }
        slacks.reverse();
        Ladder { slacks }
    }

    pub fn steps(&self) -> u32 {
        self.slacks.len() as u32 - 1
    }

    pub fn slack(&self, step: u32) -> u32 {
        self.slacks[step as usize]
    }

    pub fn divisor(&self, step: u32) -> u32 {
        self.slack(step - 1) / self.slack(step)
    }
}
