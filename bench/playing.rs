// Plays days many times through the proved library and in plain Rust, and prints the nanoseconds of a day of each.
#[path = "plain/ladder.rs"]
#[allow(dead_code)]
mod ladder;
#[path = "plain/post.rs"]
#[allow(dead_code)]
mod post;
#[path = "plain/report.rs"]
#[allow(dead_code)]
mod report;
#[path = "plain/window.rs"]
mod window;

use ladder::Ladder;
use post::{DirectPost, Post};
use report::play;
use std::hint::black_box;
use std::time::Instant;
use window::Window;

const LOTS: u32 = 32_000;
const CALLS: u32 = 20;
const DEFAULT_RUNS: usize = 31;

// In the language of C a slice is a pointer and a length.
#[link(name = "playing_library", kind = "static")]
unsafe extern "C" {
    fn zimuralve_day_messages(
        offices: u32,
        grain: u32,
        steps: u32,
        lots: *const u32,
        lot_count: usize,
        messages: &mut u32,
    ) -> bool;
}

// A day on a halving ladder.
struct Day {
    title: &'static str,
    offices: u32,
    grain: u32,
    steps: u32,
    lots: Vec<u32>,
}

impl Day {
    fn new(title: &'static str, offices: u32, grain: u32, steps: u32) -> Self {
        let lots = (0..LOTS).map(|lot| lot % offices + 1).collect();
        Day { title, offices, grain, steps, lots }
    }
}

fn by_library(day: &Day) -> u32 {
    let mut messages = 0;
    // SAFETY: the pointer and the length are those of one slice, which nothing else writes.
    let played = unsafe {
        let lots = &day.lots;
        zimuralve_day_messages(
            day.offices, day.grain, day.steps, lots.as_ptr(), lots.len(), &mut messages,
        )
    };
    assert!(played);
    messages
}

fn in_plain_rust(day: &Day) -> u32 {
    let offices = day.offices as usize;
    let ladder = Ladder::new(day.grain, &vec![2; day.steps as usize]);
    let window = Window::open(DirectPost::new(offices), offices, ladder);
    play(window, &day.lots).window.post.messages()
}

// The nanoseconds of one day, over some calls.
fn time(day: &Day, play_day: fn(&Day) -> u32) -> u128 {
    let begin = Instant::now();
    for _ in 0..CALLS {
        black_box(play_day(black_box(day)));
    }
    begin.elapsed().as_nanos() / u128::from(CALLS)
}

fn median(mut times: Vec<u128>) -> u128 {
    times.sort_unstable();
    times[times.len() / 2]
}

// The median times of both, which play in turn.
fn time_both(day: &Day, runs: usize) -> (u128, u128) {
    let mut proved = Vec::new();
    let mut plain = Vec::new();
    for _ in 0..runs {
        proved.push(time(day, by_library));
        plain.push(time(day, in_plain_rust));
    }
    (median(proved), median(plain))
}

fn show_row(title: &str, (proved, plain): (u128, u128)) {
    let ratio = proved as f64 / plain as f64;
    println!("| {title} | {proved} | {plain} | {ratio:.2} |");
}

fn main() {
    let runs = std::env::args().nth(1).map_or(DEFAULT_RUNS, |runs| runs.parse().expect("a number"));
    let days = [
        Day::new("1 | closes at once", 1, 1, 1),
        Day::new("1 | closes late", 1, 1, 14),
        Day::new("1 | no lot signals", 1, 8_388_608, 1),
        Day::new("64 | closes at once", 64, 1, 1),
        Day::new("64 | closes late", 64, 1, 8),
        Day::new("64 | no lot signals", 64, 8_388_608, 1),
    ];
    println!("| offices | window | proved, ns | plain, ns | ratio |");
    println!("| --- | --- | --- | --- | --- |");
    let mut sums = (0, 0);
    for day in &days {
        assert_eq!(by_library(day), in_plain_rust(day));
        let pair = time_both(day, runs);
        show_row(day.title, pair);
        sums = (sums.0 + pair.0, sums.1 + pair.1);
    }
    show_row("all |", sums);
}
