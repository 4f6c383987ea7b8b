//! The least division of rows into parts in which no two overlap.

use crate::point::{Period, Point};
use std::cmp::Reverse;
use std::collections::BinaryHeap;

/// The parts of some rows: their ids part by part, and where each part ends among them.
pub struct Division {
    pub ids: Vec<u32>,
    pub ends: Vec<usize>,
    /// The first point that as many rows hold as there are parts.
    pub instant: Option<Point>,
}

/// A row as one number, of which those of rows are ordered by start, then end, then id: points take 39
/// bits and ids 20.
#[derive(Clone, Copy, PartialEq, Eq, PartialOrd, Ord)]
pub struct Key(u128);

impl Key {
    pub fn new(period: Period, id: u32) -> Key {
        let second = |point: Point| (point.0 - Point::FIRST.0) as u128;
        Key(second(period.from) << 59 | second(period.to) << 20 | u128::from(id))
    }

    pub fn period(self) -> Period {
        let point = |seconds: u128| Point((seconds & 0x7F_FFFF_FFFF) as i64 + Point::FIRST.0);
        Period {
            from: point(self.0 >> 59),
            to: point(self.0 >> 20),
        }
    }

    pub fn id(self) -> u32 {
        (self.0 & 0xF_FFFF) as u32
    }
}

/// The parts by their last ends, of equals by their numbers.
type LastEnds = BinaryHeap<Reverse<(Point, u32)>>;

/// Divides rows, taken by start, end and id. Each goes into the part that ended first, if it has ended
/// by the row's start, of equals the first; else into a new one.
pub fn divide(mut rows: Vec<Key>) -> Division {
    rows.sort_unstable();
    let mut ends = LastEnds::new();
    let mut parts = Vec::with_capacity(rows.len());
    let mut instant = None;
    for row in &rows {
        let part = join_part(&mut ends, row.period()).unwrap_or_else(|| {
            instant = Some(row.period().from);
            open_part(&mut ends, row.period())
        });
        parts.push(part);
    }
    let (ids, ends) = gather(&rows, &parts, ends.len());
    Division { ids, ends, instant }
}

fn join_part(ends: &mut LastEnds, period: Period) -> Option<u32> {
    let mut first = ends.peek_mut()?;
    let Reverse((end, part)) = *first;
    if end > period.from {
        return None;
    }
    *first = Reverse((period.to, part));
    Some(part)
}

fn open_part(ends: &mut LastEnds, period: Period) -> u32 {
    let part = ends.len() as u32;
    ends.push(Reverse((period.to, part)));
    part
}

/// The ids part by part, in the order of the rows, and where each part ends among them.
fn gather(rows: &[Key], parts: &[u32], count: usize) -> (Vec<u32>, Vec<usize>) {
    let mut next = vec![0; count + 1];
    for part in parts {
        next[*part as usize + 1] += 1;
    }
    for part in 1..next.len() {
        next[part] += next[part - 1];
    }
    let mut ids = vec![0; rows.len()];
    for (row, part) in rows.iter().zip(parts) {
        let place = &mut next[*part as usize];
        ids[*place] = row.id();
        *place += 1;
    }
    next.truncate(count);
    (ids, next)
}
