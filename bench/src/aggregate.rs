//! What the rows of a table come to from point to point, by one sweep over the starts and ends of each group.

use crate::point::{Period, Point};
use crate::table::Table;
use crate::values::Value;
use std::collections::BTreeMap;

/// What is asked of the rows that hold.
#[derive(Clone, Copy, Debug, PartialEq, Eq)]
pub enum Func {
    Count,
    Sum,
    Min,
    Max,
}

/// A table's rows as a commit shows them, and what is asked of them.
pub struct Aggregate<'a> {
    pub table: &'a Table,
    pub commit: u64,
    pub func: Func,
    /// The place of the column of the numbers.
    pub column: Option<usize>,
    /// The place of the column by which rows are grouped.
    pub by: Option<usize>,
}

/// A group, and a longest period in which rows of it hold and come to one value.
#[derive(Clone, Copy, Debug)]
pub struct Total<'a> {
    pub group: Option<Value<'a>>,
    pub period: Period,
    pub value: i128,
}

/// A row that starts or ends to hold, with its number.
struct Event {
    at: Point,
    starts: bool,
    number: i64,
}

/// The rows that hold where the sweep is.
#[derive(Default)]
struct Holding {
    count: u64,
    sum: i128,
    /// How often each number is there, where the least or the greatest is asked for.
    numbers: BTreeMap<i64, u32>,
}

impl<'a> Aggregate<'a> {
    /// All of them, by group and start.
    pub fn totals(&self) -> Vec<Total<'a>> {
        let mut places: Vec<usize> = self.table.shown(self.commit).collect();
        if self.by.is_some() {
            places.sort_by_key(|place| self.group(*place));
        }
        let mut totals = Vec::new();
        for run in places.chunk_by(|one, next| self.group(*one) == self.group(*next)) {
            self.sweep(run, &mut totals);
        }
        totals
    }

    fn group(&self, place: usize) -> Option<Value<'a>> {
        self.by
            .map(|column| self.table.columns[column].values.get(place))
    }

    fn number(&self, place: usize) -> i64 {
        let value = self
            .column
            .map(|column| self.table.columns[column].values.get(place));
        match value {
            Some(Value::Int(number)) => number,
            _ => 0,
        }
    }

    /// The totals of the rows of one group.
    fn sweep(&self, places: &[usize], totals: &mut Vec<Total<'a>>) {
        let group = self.group(places[0]);
        let first = totals.len();
        let mut events = Vec::with_capacity(2 * places.len());
        for place in places {
            let (period, number) = (self.table.period(*place), self.number(*place));
            for (at, starts) in [(period.from, true), (period.to, false)] {
                events.push(Event { at, starts, number });
            }
        }
        events.sort_unstable_by_key(|event| event.at);
        let mut holding = Holding::default();
        let mut from = events[0].at;
        for now in events.chunk_by(|one, next| one.at == next.at) {
            let to = now[0].at;
            if let (Some(value), Some(period)) = (holding.value(self.func), Period::new(from, to)) {
                add(
                    totals,
                    first,
                    Total {
                        group,
                        period,
                        value,
                    },
                );
            }
            for event in now {
                holding.pass(event, self.func);
            }
            from = to;
        }
    }
}

/// Adds a total, or lengthens the last one behind place `first` by it.
fn add<'a>(totals: &mut Vec<Total<'a>>, first: usize, total: Total<'a>) {
    match totals[first..].last_mut() {
        Some(last) if last.period.to == total.period.from && last.value == total.value => {
            last.period.to = total.period.to;
        }
        _ => totals.push(total),
    }
}

impl Holding {
    /// What the rows come to, where there are any.
    fn value(&self, func: Func) -> Option<i128> {
        if self.count == 0 {
            return None;
        }
        match func {
            Func::Count => Some(self.count.into()),
            Func::Sum => Some(self.sum),
            Func::Min => self.numbers.keys().next().map(|number| (*number).into()),
            Func::Max => self
                .numbers
                .keys()
                .next_back()
                .map(|number| (*number).into()),
        }
    }

    fn pass(&mut self, event: &Event, func: Func) {
        let number = i128::from(event.number);
        if event.starts {
            self.count += 1;
            self.sum += number;
        } else {
            self.count -= 1;
            self.sum -= number;
        }
        if matches!(func, Func::Min | Func::Max) {
            self.pass_number(event);
        }
    }

    fn pass_number(&mut self, event: &Event) {
        let times = self.numbers.entry(event.number).or_insert(0);
        if event.starts {
            *times += 1;
        } else {
            *times -= 1;
        }
        if *times == 0 {
            self.numbers.remove(&event.number);
        }
    }
}
