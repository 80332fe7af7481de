// A day that is played through a window, and the report of it.
use crate::post::Post;
use crate::window::{Office, Window};
use std::fmt::Write;

pub struct Played<P> {
    pub window: Window<P>,
    pub accepted: usize,
    pub late: usize,
    pub closing: Option<usize>,
}

pub fn play<P: Post>(window: Window<P>, lots: &[u32]) -> Played<P> {
    let mut played = Played { window, accepted: 0, late: 0, closing: None };
    for office in lots {
        match played.window.lot(*office) {
            Ok(()) => {
                played.accepted += 1;
                if !played.window.coordinator.is_open {
                    played.closing = Some(played.accepted);
                }
            }
            Err(_) => played.late += 1,
        }
    }
    played
}

// One figure of each office, with commas between.
fn figures(offices: &[Office], figure: impl Fn(&Office) -> u32) -> String {
    let figures: Vec<String> = offices.iter().map(|office| figure(office).to_string()).collect();
    figures.join(",")
}

impl<P: Post> Played<P> {
    pub fn report(&self) -> String {
        let window = &self.window;
        let mut report = String::new();
        let mut line = |key: &str, value: &str| {
            let _ = writeln!(report, "{key}={value}");
        };
        line("closed", &self.closing.map_or("no".to_string(), |lot| lot.to_string()));
        line("step", &window.coordinator.step.to_string());
        line("signals", &window.coordinator.signals.to_string());
        line("messages", &window.post.messages().to_string());
        line("frames", &window.post.frames().to_string());
        line("accepted", &self.accepted.to_string());
        line("late", &self.late.to_string());
        line("credits", &figures(&window.offices, |office| office.credit));
        line("remainders", &figures(&window.offices, |office| office.remainder));
        report
    }
}
