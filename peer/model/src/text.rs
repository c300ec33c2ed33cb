//! The text: records of whole numbers split by commas and ended by CR LF, the last end optional.

use std::io::{self, Read};

use crate::{Answer, Refusal};

/// The most bytes a record has before its end.
pub const LONGEST_RECORD: usize = 16_384;

const BUFFER: usize = 1 << 18;

/// Reads a number at the start of `text`: 1 to 10 digits, no leading zero but for 0 itself, within 32 bits. Answers it
/// with the bytes it takes.
#[inline]
fn number(text: &[u8]) -> Option<(u32, usize)> {
    let digit = |at: usize| text.get(at).map(|byte| byte.wrapping_sub(b'0')).filter(|digit| *digit < 10);
    let mut value = u64::from(digit(0)?);
    let mut used = 1;
    while let Some(next) = digit(used) {
        if value == 0 || used == 10 {
            return None;
        }
        value = value * 10 + u64::from(next);
        used += 1;
    }
    Some((u32::try_from(value).ok()?, used))
}

/// Reads a record of exactly `fields.len()` fields at the start of `text`, which goes on to the end of the file or at least
/// beyond the longest record. Answers the bytes it takes with its end, or nothing when the record breaks the rules; the
/// fields are then of no use.
#[inline]
fn record(text: &[u8], fields: &mut [u32]) -> Option<usize> {
    let mut at = 0;
    for (i, field) in fields.iter_mut().enumerate() {
        if i > 0 {
            if text.get(at) != Some(&b',') {
                return None;
            }
            at += 1;
        }
        let (value, used) = number(text.get(at..)?)?;
        *field = value;
        at += used;
    }
    if at > LONGEST_RECORD {
        return None;
    }
    match text.get(at..)? {
        [] => Some(at),
        [b'\r', b'\n', ..] => Some(at + 2),
        _ => None,
    }
}

/// Whether a text that stops here could still go on to a record of so many fields: nothing in it breaks one, and its end has not come.
fn unfinished(text: &[u8], fields: usize) -> bool {
    let mut at = 0;
    for i in 0..fields {
        if i > 0 && at < text.len() {
            if text[at] != b',' {
                return false;
            }
            at += 1;
        }
        if at < text.len() {
            match number(&text[at..]) {
                Some((_, used)) => at += used,
                None => return false,
            }
        }
    }
    at <= LONGEST_RECORD && matches!(text[at..], [] | [b'\r'])
}

/// What comes next in a text.
#[derive(Clone, Copy, Debug, PartialEq, Eq)]
pub enum Next {
    /// A record; its fields have been written.
    Record,
    /// A record that breaks the rules or has a wrong number of fields.
    Broken,
    /// Nothing: the text has ended.
    End,
}

/// Reads a text record by record through a buffer of fixed size.
pub struct Records<R> {
    source: R,
    buffer: Box<[u8]>,
    start: usize,
    end: usize,
    ended: bool,
    /// The read that failed, until the records before it have been handed out.
    failed: Option<io::Error>,
}

impl<R: Read> Records<R> {
    pub fn new(source: R) -> Self {
        Records { source, buffer: vec![0; BUFFER].into(), start: 0, end: 0, ended: false, failed: None }
    }

    /// Reads until the buffer holds more than the longest record with its end, or the text has ended, or a read fails.
    fn fill(&mut self) {
        if self.ended || self.failed.is_some() || self.end - self.start > LONGEST_RECORD + 2 {
            return;
        }
        self.buffer.copy_within(self.start..self.end, 0);
        self.end -= self.start;
        self.start = 0;
        while !self.ended && self.failed.is_none() && self.end <= LONGEST_RECORD + 2 {
            match self.source.read(&mut self.buffer[self.end..]) {
                Ok(0) => self.ended = true,
                Ok(read) => self.end += read,
                Err(error) if error.kind() == io::ErrorKind::Interrupted => {}
                Err(error) => self.failed = Some(error),
            }
        }
    }

    /// Reads the next record into `fields`. A read that failed is told where the records before it have ended. After that, or after a
    /// broken record, there is nothing more to ask for.
    pub fn next(&mut self, fields: &mut [u32]) -> io::Result<Next> {
        self.fill();
        let text = &self.buffer[self.start..self.end];
        if self.failed.is_some() && unfinished(text, fields.len()) {
            return Err(self.failed.take().expect("it has just been seen"));
        }
        if text.is_empty() {
            return Ok(Next::End);
        }
        Ok(match record(text, fields) {
            Some(used) => {
                self.start += used;
                Next::Record
            }
            None => Next::Broken,
        })
    }
}

/// Reads a whole text of records with `width` fields each: the numbers laid end to end, or number 12 at the first record
/// that breaks.
pub fn read_whole(text: &[u8], width: usize) -> Answer<Vec<u32>> {
    let mut rest = text;
    let mut numbers = Vec::new();
    let mut fields = vec![0; width];
    for at in 1.. {
        if rest.is_empty() {
            break;
        }
        let used = record(rest, &mut fields).ok_or(Refusal::new(12, at))?;
        numbers.extend_from_slice(&fields);
        rest = &rest[used..];
    }
    Ok(numbers)
}

const PAIRS: [u8; 200] = {
    let mut pairs = [0; 200];
    let mut i = 0;
    while i < 100 {
        pairs[2 * i] = b'0' + (i / 10) as u8;
        pairs[2 * i + 1] = b'0' + (i % 10) as u8;
        i += 1;
    }
    pairs
};

/// Writes the digits of `number` into `place` so that they end before `end`, and answers where they start. Ten places are
/// enough for 32 bits, twenty for 64.
#[inline]
pub fn decimal(mut number: u64, place: &mut [u8], mut end: usize) -> usize {
    while number >= 100 {
        let pair = (number % 100) as usize * 2;
        number /= 100;
        end -= 2;
        place[end..end + 2].copy_from_slice(&PAIRS[pair..pair + 2]);
    }
    if number >= 10 {
        let pair = number as usize * 2;
        end -= 2;
        place[end..end + 2].copy_from_slice(&PAIRS[pair..pair + 2]);
    } else {
        end -= 1;
        place[end] = b'0' + number as u8;
    }
    end
}

/// Appends a record and its end to a text.
pub fn write_record(text: &mut Vec<u8>, fields: impl IntoIterator<Item = u64>) {
    for (i, field) in fields.into_iter().enumerate() {
        if i > 0 {
            text.push(b',');
        }
        let mut place = [0; 20];
        let at = decimal(field, &mut place, 20);
        text.extend_from_slice(&place[at..]);
    }
    text.extend_from_slice(b"\r\n");
}
