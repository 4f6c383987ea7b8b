//! What the fields of a record give.

use crate::csv::Record;
use crate::point::{Period, Point};
use crate::refusal::Refusal;

const RESERVED: [&[u8]; 6] = [b"asof", b"by", b"key", b"on", b"set", b"where"];

/// Whether the record ends a block.
pub fn is_end(record: Record<'_>) -> bool {
    record.len() == 1 && record.begins(b"end")
}

/// The text, where it is a name of a table or a column.
pub fn name(text: &[u8]) -> Result<&[u8], Refusal> {
    let is_name = matches!(text, [b'a'..=b'z', ..])
        && text.len() <= 32
        && text
            .iter()
            .all(|byte| matches!(byte, b'a'..=b'z' | b'0'..=b'9' | b'_'))
        && !RESERVED.contains(&text);
    if is_name {
        Ok(text)
    } else {
        Err(Refusal::BadName)
    }
}

pub fn point(text: &[u8]) -> Result<Point, Refusal> {
    Point::parse(text).ok_or(Refusal::BadPoint)
}

pub fn period(from: &[u8], to: &[u8]) -> Result<Period, Refusal> {
    Period::new(point(from)?, point(to)?).ok_or(Refusal::BadPeriod)
}

/// The number that is printed as the text: no plus, no zero before another digit, no `-0`.
pub fn integer(text: &[u8]) -> Result<i64, Refusal> {
    let is_plain = matches!(text, [b'0'] | [b'1'..=b'9', ..] | [b'-', b'1'..=b'9', ..]);
    let text = str::from_utf8(text).map_err(|_| Refusal::BadNumber)?;
    match text.parse() {
        Ok(number) if is_plain => Ok(number),
        _ => Err(Refusal::BadNumber),
    }
}

/// A number from 0 on.
pub fn natural(text: &[u8]) -> Result<u64, Refusal> {
    u64::try_from(integer(text)?).map_err(|_| Refusal::BadNumber)
}

/// A point, or `-` for none.
pub fn instant(text: &[u8]) -> Result<Option<Point>, Refusal> {
    if text == b"-" {
        Ok(None)
    } else {
        point(text).map(Some)
    }
}

/// The fields behind a record's word, of which there are so many.
pub fn behind<const N: usize>(record: Record<'_>) -> Result<[&[u8]; N], Refusal> {
    if record.len() != N + 1 {
        return Err(Refusal::BadCommand);
    }
    Ok(std::array::from_fn(|place| record.field(place + 1)))
}

/// A record without its suffix `asof,N`, and the text of that number.
pub fn split_asof(record: Record<'_>) -> (Record<'_>, Option<&[u8]>) {
    match record.len().checked_sub(2) {
        Some(front) if record.field(front) == b"asof" => {
            (record.range(0..front), Some(record.field(front + 1)))
        }
        _ => (record, None),
    }
}

/// The commit that a suffix names, where there is one.
pub fn commit(text: Option<&[u8]>) -> Result<Option<u64>, Refusal> {
    text.map(natural).transpose()
}
