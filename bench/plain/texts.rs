// What the two texts say: the terms of a window, and the day.
use crate::fault::{Fault, Layer, Refusal};
use crate::ladder::{HIGHEST_TOP, Ladder, MOST_STEPS};
use crate::reader::Reader;

const LONGEST_TEXT: usize = 65_535;
const MOST_OFFICES: u32 = 64;
const LARGEST_GRAIN: u32 = 8_388_608;

pub enum PostChoice {
    Direct,
    Bit,
}

pub struct Terms {
    pub offices: u32,
    pub ladder: Ladder,
    pub post: PostChoice,
}

// The marks are a part of the day's text.
pub struct Day<'a> {
    pub marks: &'a [u8],
    pub lots: Vec<u32>,
}

// The number of steps of a halving ladder.
fn read_steps(reader: &mut Reader, grain: u32) -> Result<usize, Fault> {
    let fits = |steps| (1..=16).contains(&steps) && grain <= HIGHEST_TOP >> steps;
    Ok(reader.number_if(fits, Refusal::OutOfRange)? as usize)
}

fn read_divisors(reader: &mut Reader, grain: u32) -> Result<Vec<u32>, Fault> {
    let mut divisors = Vec::new();
    let mut top = grain;
    loop {
        let fits = |divisor| (2..=16).contains(&divisor) && top * divisor <= HIGHEST_TOP;
        let divisor = reader.number_if(fits, Refusal::OutOfRange)?;
        top *= divisor;
        divisors.push(divisor);
        if !reader.stands(b',') {
            return Ok(divisors);
        }
        if divisors.len() == MOST_STEPS {
            return Err(reader.fault(Refusal::OutOfRange));
        }
        reader.skip_byte(b',');
    }
}

fn read_ladder(reader: &mut Reader, grain: u32) -> Result<Ladder, Fault> {
    let divisors = if reader.skip(b"halving/") {
        vec![2; read_steps(reader, grain)?]
    } else if reader.skip(b"listed/") {
        read_divisors(reader, grain)?
    } else {
        return Err(reader.fault(Refusal::UnknownWord));
    };
    Ok(Ladder::new(grain, &divisors))
}

fn read_post(reader: &mut Reader) -> Result<PostChoice, Fault> {
    if reader.skip(b"direct") {
        Ok(PostChoice::Direct)
    } else if reader.skip(b"bit") {
        Ok(PostChoice::Bit)
    } else {
        Err(reader.fault(Refusal::UnknownWord))
    }
}

fn read_terms(text: &[u8]) -> Result<Terms, Fault> {
    let mut reader = Reader::new(Layer::Terms, text);
    let offices = reader.number_line(b"offices=", 1..=MOST_OFFICES)?;
    let grain = reader.number_line(b"grain=", 1..=LARGEST_GRAIN)?;
    reader.expect(b"ladder=")?;
    let ladder = read_ladder(&mut reader, grain)?;
    reader.expect(b"\n")?;
    reader.expect(b"post=")?;
    let post = read_post(&mut reader)?;
    reader.expect(b"\n")?;
    reader.end_text()?;
    Ok(Terms { offices, ladder, post })
}

fn read_marks<'a>(reader: &mut Reader<'a>) -> Result<&'a [u8], Fault> {
    let marks = reader.run(|b| matches!(b, b'.' | b'-' | b'+'));
    if !reader.at_end() && !reader.stands(b'\n') {
        return Err(reader.fault(Refusal::NotAMark));
    }
    Ok(marks)
}

fn read_lots(reader: &mut Reader, offices: u32) -> Result<Vec<u32>, Fault> {
    let mut lots = Vec::new();
    if reader.stands(b'\n') {
        return Ok(lots);
    }
    loop {
        lots.push(reader.number_in(1..=offices, Refusal::NoSuchOffice)?);
        if !reader.skip_byte(b',') {
            return Ok(lots);
        }
    }
}

fn read_day(text: &[u8], offices: u32) -> Result<Day<'_>, Fault> {
    let mut reader = Reader::new(Layer::Day, text);
    reader.expect(b"marks=")?;
    let marks = read_marks(&mut reader)?;
    reader.expect(b"\n")?;
    reader.expect(b"lots=")?;
    let lots = read_lots(&mut reader, offices)?;
    reader.expect(b"\n")?;
    reader.end_text()?;
    Ok(Day { marks, lots })
}

fn check_length(layer: Layer, text: &[u8]) -> Result<(), Fault> {
    if text.len() > LONGEST_TEXT {
        return Err(Fault { refusal: Refusal::TextTooLong, layer, place: LONGEST_TEXT });
    }
    Ok(())
}

// What both texts say, or the first fault.
pub fn read_texts<'a>(terms: &[u8], day: &'a [u8]) -> Result<(Terms, Day<'a>), Fault> {
    check_length(Layer::Terms, terms)?;
    check_length(Layer::Day, day)?;
    let terms = read_terms(terms)?;
    let day = read_day(day, terms.offices)?;
    Ok((terms, day))
}
