//! The pairs of rows of two tables that match and overlap, by one sweep over both.

use crate::divide::Key;
use crate::point::Period;
use crate::table::Table;
use crate::values::Value;
use std::collections::HashMap;

/// The rows of a table that a commit shows, and the places of the columns by which they are compared.
pub struct Side<'a> {
    pub table: &'a Table,
    pub commit: u64,
    pub columns: Vec<usize>,
}

/// A left and a right row that overlap: what they share, and their places.
#[derive(Clone, Copy, Debug)]
pub struct Joined {
    pub period: Period,
    pub left: u32,
    pub right: u32,
}

/// A row on its way through the sweep.
struct Arrival {
    key: Key,
    class: u32,
    is_right: bool,
}

/// The rows of one class that hold where the sweep is, and some that have ended, by sides.
#[derive(Default)]
struct Class {
    open: [Vec<Key>; 2],
}

/// All pairs, by start, end, left place and right place.
///
/// Rows come by their starts. Each is paired with the open rows of its class of the other side, of which
/// those that have ended are dropped on the way; so a pair starts where its later row does, and only
/// pairs of one start are left to be sorted.
pub fn join(left: &Side<'_>, right: &Side<'_>) -> Vec<Joined> {
    let mut arrivals = Vec::new();
    let mut classes = HashMap::new();
    for (side, is_right) in [(left, false), (right, true)] {
        for place in side.table.shown(side.commit) {
            let class = match *side.columns {
                [] => 0,
                _ => class_of(&mut classes, side, place),
            };
            let key = Key::new(side.table.period(place), place as u32);
            arrivals.push(Arrival {
                key,
                class,
                is_right,
            });
        }
    }
    arrivals.sort_unstable_by_key(|arrival| arrival.key);
    sweep(&arrivals, classes.len().max(1))
}

/// The number of the class of a row: of rows that are equal in the columns, the same.
pub fn class_of<'a>(
    classes: &mut HashMap<Vec<Value<'a>>, u32>,
    side: &Side<'a>,
    place: usize,
) -> u32 {
    let columns = side.columns.iter();
    let values = columns.map(|column| side.table.columns[*column].values.get(place));
    let next = classes.len() as u32;
    *classes.entry(values.collect()).or_insert(next)
}

fn sweep(arrivals: &[Arrival], count: usize) -> Vec<Joined> {
    let mut classes: Vec<Class> = (0..count).map(|_| Class::default()).collect();
    let mut found = Vec::new();
    let mut sorted = 0;
    let mut start = None;
    for arrival in arrivals {
        let period = arrival.key.period();
        if start != Some(period.from) {
            sort(&mut found[sorted..]);
            sorted = found.len();
            start = Some(period.from);
        }
        let Class { open } = &mut classes[arrival.class as usize];
        let side = usize::from(arrival.is_right);
        open[1 - side].retain(|other| {
            let holds = other.period().to > period.from;
            if holds {
                found.push(pair(arrival, *other));
            }
            holds
        });
        open[side].push(arrival.key);
    }
    sort(&mut found[sorted..]);
    found
}

/// An arrival with an open row of the other side.
fn pair(arrival: &Arrival, other: Key) -> Joined {
    let (period, ends) = (arrival.key.period(), other.period().to);
    let (left, right) = if arrival.is_right {
        (other, arrival.key)
    } else {
        (arrival.key, other)
    };
    Joined {
        period: Period {
            from: period.from,
            to: period.to.min(ends),
        },
        left: left.id(),
        right: right.id(),
    }
}

/// Sorts pairs of one start.
fn sort(pairs: &mut [Joined]) {
    pairs.sort_unstable_by_key(|joined| (joined.period.to, joined.left, joined.right));
}

#[cfg(test)]
mod tests {
    use crate::script;

    fn answers(script: &str) -> String {
        let mut answers = Vec::new();
        script::run(script.as_bytes().to_vec(), &mut answers).unwrap();
        String::from_utf8(answers).unwrap()
    }

    #[test]
    fn rows_that_match_and_overlap_are_joined() {
        let tables = "table,a,c,int\ntable,b,c,int\nload,a\nrow,2024-01-01,2024-01-10,1\nrow,2024-01-05,2024-01-08,2\n\
             end\nload,b\nrow,2024-01-03,2024-01-06,1\nrow,2024-01-06,2024-01-20,1\nrow,2024-01-07,2024-01-08,2\nend\n";
        let changed = "ok,1\nok,2\nok,3\nok,4\n";
        assert_eq!(
            answers(&format!("{tables}join,a,b,on,c,c\n")),
            format!(
                "{changed}row,2024-01-03,2024-01-06,1,1,1,1\nrow,2024-01-06,2024-01-10,1,2,1,1\n\
                 row,2024-01-07,2024-01-08,2,3,2,2\nend,3\n"
            )
        );
        assert_eq!(
            answers(&format!("{tables}join,a,b\n")),
            format!(
                "{changed}row,2024-01-03,2024-01-06,1,1,1,1\nrow,2024-01-05,2024-01-06,2,1,2,1\n\
                 row,2024-01-06,2024-01-08,2,2,2,1\nrow,2024-01-06,2024-01-10,1,2,1,1\n\
                 row,2024-01-07,2024-01-08,1,3,1,2\nrow,2024-01-07,2024-01-08,2,3,2,2\nend,6\n"
            )
        );
    }
}
