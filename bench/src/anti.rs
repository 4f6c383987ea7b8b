//! When rows of a table hold and no matching row of another does, from the union of the periods of those that match.

use crate::join::{Side, class_of};
use crate::point::Period;
use crate::values::Value;
use std::collections::HashMap;
use std::ops::Range;

/// The place of a left row, and a longest period of it in which no matching row holds.
#[derive(Clone, Copy, Debug)]
pub struct Unmatched {
    pub left: u32,
    pub period: Period,
}

/// The periods in which some right row of each class holds, apart from each other and by class and start.
struct Covered<'a> {
    classes: HashMap<Vec<Value<'a>>, u32>,
    periods: Vec<Period>,
    of_class: Vec<Range<usize>>,
}

/// All of them, by place and start.
pub fn anti(left: &Side<'_>, right: &Side<'_>) -> Vec<Unmatched> {
    let covered = Covered::by(right);
    let mut found = Vec::new();
    for place in left.table.shown(left.commit) {
        let period = left.table.period(place);
        add_uncovered(period, covered.over(left, place), |period| {
            found.push(Unmatched {
                left: place as u32,
                period,
            });
        });
    }
    found
}

impl<'a> Covered<'a> {
    fn by(right: &Side<'a>) -> Covered<'a> {
        let mut classes = HashMap::new();
        let mut holding = Vec::new();
        for place in right.table.shown(right.commit) {
            let class = class_of(&mut classes, right, place);
            holding.push((class, right.table.period(place)));
        }
        holding.sort_unstable_by_key(|(class, period)| (*class, period.from));
        let mut periods: Vec<Period> = Vec::new();
        let mut of_class = Vec::with_capacity(classes.len());
        for run in holding.chunk_by(|one, next| one.0 == next.0) {
            let start = periods.len();
            for (_, period) in run {
                match periods[start..].last_mut() {
                    Some(last) if period.from <= last.to => last.to = last.to.max(period.to),
                    _ => periods.push(*period),
                }
            }
            of_class.push(start..periods.len());
        }
        Covered {
            classes,
            periods,
            of_class,
        }
    }

    /// The periods in which some right row holds that matches the left row.
    fn over(&self, left: &Side<'_>, place: usize) -> &[Period] {
        let values = left.columns.iter();
        let values = values.map(|column| left.table.columns[*column].values.get(place));
        match self.classes.get(&values.collect::<Vec<_>>()) {
            Some(class) => &self.periods[self.of_class[*class as usize].clone()],
            None => &[],
        }
    }
}

/// What is left of a period between the covered ones.
fn add_uncovered(period: Period, covered: &[Period], mut add: impl FnMut(Period)) {
    let first = covered.partition_point(|other| other.to <= period.from);
    let mut from = period.from;
    for other in &covered[first..] {
        if other.from >= period.to {
            break;
        }
        if let Some(gap) = Period::new(from, other.from) {
            add(gap);
        }
        from = other.to;
    }
    if let Some(rest) = Period::new(from, period.to) {
        add(rest);
    }
}
