// A fault of the two texts: the refusal, the layer that refuses, and the place.
use std::fmt::{self, Display, Formatter};

#[derive(Clone, Copy)]
pub enum Layer {
    Terms,
    Day,
}

impl Display for Layer {
    fn fmt(&self, f: &mut Formatter<'_>) -> fmt::Result {
        f.write_str(match self {
            Layer::Terms => "terms",
            Layer::Day => "day",
        })
    }
}

#[derive(Clone, Copy)]
pub enum Refusal {
    NoSuchOffice = 1,
    TextTooLong = 8,
    NotAsExpected = 9,
    NotANumber = 10,
    OutOfRange = 11,
    UnknownWord = 12,
    NotAMark = 13,
    BytesAfterEnd = 14,
}

#[derive(Clone, Copy)]
pub struct Fault {
    pub refusal: Refusal,
    pub layer: Layer,
    pub place: usize,
}

// The line of a text in which the place lies.
fn line_of(text: &[u8], place: usize) -> &[u8] {
    let place = place.min(text.len());
    let (before, after) = text.split_at(place);
    let start = before.iter().rposition(|b| *b == b'\n').map_or(0, |at| at + 1);
    let end = after.iter().position(|b| *b == b'\n').map_or(text.len(), |at| place + at);
    &text[start..end]
}

impl Fault {
    // The four lines that are printed of a fault of this text.
    pub fn lines(&self, text: &[u8]) -> Vec<u8> {
        let Fault { refusal, layer, place } = *self;
        let head = format!("fault={}\nlayer={layer}\nplace={place}\nline=", refusal as u32);
        let mut lines = head.into_bytes();
        lines.extend_from_slice(line_of(text, place));
        lines.push(b'\n');
        lines
    }
}
