// A reader over one text: it stands at a place and moves past what it accepts.
use crate::fault::{Fault, Layer, Refusal};
use std::ops::RangeInclusive;

const MOST_DIGITS: usize = 8;

pub struct Reader<'a> {
    layer: Layer,
    text: &'a [u8],
    place: usize,
}

impl<'a> Reader<'a> {
    pub fn new(layer: Layer, text: &'a [u8]) -> Self {
        Reader { layer, text, place: 0 }
    }

    fn fault_at(&self, refusal: Refusal, place: usize) -> Fault {
        Fault { refusal, layer: self.layer, place }
    }

    pub fn fault(&self, refusal: Refusal) -> Fault {
        self.fault_at(refusal, self.place)
    }

    fn rest(&self) -> &'a [u8] {
        &self.text[self.place..]
    }

    pub fn at_end(&self) -> bool {
        self.place == self.text.len()
    }

    pub fn stands(&self, byte: u8) -> bool {
        self.text.get(self.place) == Some(&byte)
    }

    // Moves past the byte if it stands here, and tells whether it does.
    pub fn skip_byte(&mut self, byte: u8) -> bool {
        let stands = self.stands(byte);
        self.place += usize::from(stands);
        stands
    }

    // Moves past the word if it stands here, and tells whether it does.
    pub fn skip(&mut self, word: &[u8]) -> bool {
        let stands = self.rest().starts_with(word);
        if stands {
            self.place += word.len();
        }
        stands
    }

    pub fn expect(&mut self, word: &[u8]) -> Result<(), Fault> {
        if self.skip(word) { Ok(()) } else { Err(self.fault(Refusal::NotAsExpected)) }
    }

    pub fn end_text(&self) -> Result<(), Fault> {
        if self.at_end() { Ok(()) } else { Err(self.fault(Refusal::BytesAfterEnd)) }
    }

    // Moves past all bytes that stand here in a row and are wanted.
    pub fn run(&mut self, wanted: impl Fn(u8) -> bool) -> &'a [u8] {
        let rest = self.rest();
        let length = rest.iter().position(|b| !wanted(*b)).unwrap_or(rest.len());
        self.place += length;
        &rest[..length]
    }

    // Moves past a number that passes the test; a fault is told at its first byte.
    pub fn number_if(
        &mut self,
        allowed: impl FnOnce(u32) -> bool,
        refusal: Refusal,
    ) -> Result<u32, Fault> {
        let first = self.place;
        let digits = self.run(|b| b.is_ascii_digit());
        let zero_before_digit = digits.len() > 1 && digits[0] == b'0';
        if digits.is_empty() || digits.len() > MOST_DIGITS || zero_before_digit {
            return Err(self.fault_at(Refusal::NotANumber, first));
        }
        let number = digits.iter().fold(0, |value, digit| value * 10 + u32::from(digit - b'0'));
        if allowed(number) { Ok(number) } else { Err(self.fault_at(refusal, first)) }
    }

    pub fn number_in(&mut self, range: RangeInclusive<u32>, refusal: Refusal) -> Result<u32, Fault> {
        self.number_if(|number| range.contains(&number), refusal)
    }

    // A whole line: the key, a number within the range, and the line end.
    pub fn number_line(&mut self, key: &[u8], range: RangeInclusive<u32>) -> Result<u32, Fault> {
        self.expect(key)?;
        let number = self.number_in(range, Refusal::OutOfRange)?;
        self.expect(b"\n")?;
        Ok(number)
    }
}
