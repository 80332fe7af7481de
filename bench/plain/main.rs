// The program in plain Rust: reads terms.txt and day.txt in the current folder, plays the day, and prints its report or the first fault.
mod bit_post;
mod fault;
mod ladder;
mod post;
mod reader;
mod report;
mod texts;
mod window;
mod wire;

use bit_post::BitPost;
use fault::Layer;
use post::DirectPost;
use report::play;
use std::fs::File;
use std::io::{self, ErrorKind, Read, Write};
use std::process::ExitCode;
use texts::{Day, PostChoice, Terms, read_texts};
use window::Window;

// One byte more than a text may have.
const READ_LIMIT: u64 = 65_536;

// The first bytes of a file; a missing file is empty.
fn read_file(path: &str) -> io::Result<Vec<u8>> {
    let mut bytes = Vec::new();
    match File::open(path) {
        Ok(file) => {
            file.take(READ_LIMIT).read_to_end(&mut bytes)?;
        }
        Err(error) if error.kind() == ErrorKind::NotFound => {}
        Err(error) => return Err(error),
    }
    Ok(bytes)
}

fn day_report(terms: Terms, day: &Day) -> String {
    let offices = terms.offices as usize;
    match terms.post {
        PostChoice::Direct => {
            let post = DirectPost::new(offices);
            play(Window::open(post, offices, terms.ladder), &day.lots).report()
        }
        PostChoice::Bit => {
            let post = BitPost::new(offices, day.marks);
            play(Window::open(post, offices, terms.ladder), &day.lots).report()
        }
    }
}

fn answer(terms: &[u8], day: &[u8]) -> Vec<u8> {
    match read_texts(terms, day) {
        Ok((agreed, read)) => day_report(agreed, &read).into_bytes(),
        Err(fault) => match fault.layer {
            Layer::Terms => fault.lines(terms),
            Layer::Day => fault.lines(day),
        },
    }
}

fn run() -> io::Result<()> {
    let terms = read_file("terms.txt")?;
    let day = read_file("day.txt")?;
    let mut stdout = io::stdout();
    stdout.write_all(&answer(&terms, &day))?;
    stdout.flush()
}

fn main() -> ExitCode {
    match run() {
        Ok(()) => ExitCode::SUCCESS,
        Err(error) => {
            eprintln!("plain: {error}");
            ExitCode::FAILURE
        }
    }
}
