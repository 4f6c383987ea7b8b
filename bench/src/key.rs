//! Keys: columns in which no two rows are equal whose periods overlap.

use crate::point::{Period, Point};
use crate::table::Column;
use crate::values::Value;
use std::collections::{BTreeMap, HashMap};

/// The columns of a key, and the periods of what is open in a table by the values in these columns,
/// each as its start and its end. Those of equal values don't overlap, so they differ in their starts.
#[derive(Debug)]
pub struct Key {
    columns: Vec<usize>,
    periods: HashMap<Box<[u8]>, BTreeMap<Point, Point>>,
}

/// A version at a place of a table.
pub struct Version<'a> {
    pub columns: &'a [Column],
    pub place: usize,
    pub period: Period,
}

impl Key {
    pub fn new(columns: Vec<usize>) -> Key {
        Key {
            columns,
            periods: HashMap::new(),
        }
    }

    /// Adds a version, unless it overlaps one that is open with the same values.
    pub fn open(&mut self, version: Version<'_>) -> bool {
        let Period { from, to } = version.period;
        let periods = self.periods.entry(self.values(&version)).or_default();
        let last = periods.range(..to).next_back();
        let is_free = last.is_none_or(|(_, end)| *end <= from);
        if is_free {
            periods.insert(from, to);
        }
        is_free
    }

    /// Takes an open version out.
    pub fn close(&mut self, version: Version<'_>) {
        if let Some(periods) = self.periods.get_mut(&self.values(&version)) {
            periods.remove(&version.period.from);
        }
    }

    /// The values of a version in the columns of the key, as bytes that are equal where these are.
    fn values(&self, version: &Version<'_>) -> Box<[u8]> {
        let mut bytes = Vec::new();
        for column in &self.columns {
            match version.columns[*column].values.get(version.place) {
                Value::Int(number) => bytes.extend(number.to_le_bytes()),
                Value::Text(text) => {
                    bytes.extend(text.len().to_le_bytes());
                    bytes.extend(text);
                }
            }
        }
        bytes.into()
    }
}

#[cfg(test)]
mod tests {
    use crate::script;

    fn assert_answers(script: &str, expected: &str) {
        let mut answers = Vec::new();
        script::run(script.as_bytes().to_vec(), &mut answers).unwrap();
        assert_eq!(String::from_utf8(answers).unwrap(), expected);
    }

    #[test]
    fn overlaps_of_a_key_are_refused() {
        assert_answers(
            "table,k,c,int,key,c\nload,k\nrow,2024-01-01,2024-01-05,1\nrow,2024-01-05,2024-01-09,1\n\
             row,2024-01-03,2024-01-04,2\nend\nload,k\nrow,2024-01-04,2024-01-06,1\nend\n\
             update,k,2024-01-03,2024-01-04,set,c,1,where,c,2\n\
             update,k,2024-01-01,2024-01-03,set,c,3,where,c,1\nrows,k\n",
            "ok,1\nok,2\nerror,7,KeyOverlap\nerror,10,KeyOverlap\nok,3\n\
             row,2,2024-01-05,2024-01-09,1\nrow,3,2024-01-03,2024-01-04,2\n\
             row,4,2024-01-01,2024-01-03,3\nrow,5,2024-01-03,2024-01-05,1\nend,4\n",
        );
    }

    #[test]
    fn wrong_keys_are_refused() {
        for (key, refusal) in [
            ("key", "BadCommand"),
            ("key,key", "BadName"),
            ("key,d", "NoColumn"),
            ("key,c,c", "TwiceNamed"),
            ("key,c,c,d", "TwiceNamed"),
        ] {
            let script = format!("table,w,c,int,{key}\n");
            assert_answers(&script, &format!("error,1,{refusal}\n"));
        }
    }
}
