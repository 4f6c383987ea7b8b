//! The records of answers.

use crate::aggregate::Total;
use crate::anti::Unmatched;
use crate::book::{ChangeKind, Commit};
use crate::check::Verdict;
use crate::csv::Writer;
use crate::divide::Division;
use crate::join::Joined;
use crate::point::{Period, Point};
use crate::refusal::Fault;
use crate::table::Table;
use crate::values::Value;
use std::io::{self, Write};

pub type Answer<W> = Writer<W>;

impl<W: Write> Answer<W> {
    pub fn refused(&mut self, fault: Fault) -> io::Result<()> {
        self.word(b"error");
        self.number(fault.number);
        self.word(format!("{:?}", fault.refusal).as_bytes());
        self.end_record()
    }

    pub fn accepted(&mut self, commit: u64) -> io::Result<()> {
        self.word(b"ok");
        self.number(commit);
        self.end_record()
    }

    pub fn together(&mut self, commit: u64) -> io::Result<()> {
        self.word(b"together");
        self.number(commit);
        self.end_record()
    }

    pub fn rows(&mut self, table: &Table, places: impl Iterator<Item = usize>) -> io::Result<()> {
        let mut count = 0;
        for place in places {
            self.word(b"row");
            self.number(place as u64 + 1);
            self.period(table.period(place));
            self.values(table, place);
            self.end_record()?;
            count += 1;
        }
        self.end(count)
    }

    pub fn versions(
        &mut self,
        table: &Table,
        places: impl Iterator<Item = usize>,
    ) -> io::Result<()> {
        let mut count = 0;
        for place in places {
            let span = table.span(place);
            self.word(b"version");
            self.number(place as u64 + 1);
            self.period(table.period(place));
            self.number(span.from.into());
            match span.to() {
                Some(commit) => self.number(commit.into()),
                None => self.word(b"-"),
            }
            self.values(table, place);
            self.end_record()?;
            count += 1;
        }
        self.end(count)
    }

    pub fn joined(&mut self, left: &Table, right: &Table, rows: &[Joined]) -> io::Result<()> {
        for row in rows {
            self.word(b"row");
            self.period(row.period);
            self.number(u64::from(row.left) + 1);
            self.number(u64::from(row.right) + 1);
            self.values(left, row.left as usize);
            self.values(right, row.right as usize);
            self.end_record()?;
        }
        self.end(rows.len())
    }

    pub fn unmatched(&mut self, left: &Table, rows: &[Unmatched]) -> io::Result<()> {
        for row in rows {
            self.word(b"row");
            self.number(u64::from(row.left) + 1);
            self.period(row.period);
            self.values(left, row.left as usize);
            self.end_record()?;
        }
        self.end(rows.len())
    }

    pub fn totals(&mut self, totals: &[Total<'_>]) -> io::Result<()> {
        for total in totals {
            self.word(b"row");
            if let Some(group) = total.group {
                self.value(group);
            }
            self.period(total.period);
            match i64::try_from(total.value) {
                Ok(value) => self.signed(value),
                Err(_) => self.word(total.value.to_string().as_bytes()),
            }
            self.end_record()?;
        }
        self.end(totals.len())
    }

    pub fn division(&mut self, division: &Division) -> io::Result<()> {
        self.word(b"dip");
        self.number(division.ids.len() as u64);
        self.number(division.ends.len() as u64);
        match division.instant {
            Some(instant) => self.point(instant),
            None => self.word(b"-"),
        }
        self.end_record()?;
        let mut start = 0;
        for (part, end) in division.ends.iter().enumerate() {
            self.word(b"part");
            self.number(part as u64);
            for id in &division.ids[start..*end] {
                self.number((*id).into());
            }
            self.end_record()?;
            start = *end;
        }
        Ok(())
    }

    pub fn verdict(&mut self, fault: Option<Verdict>) -> io::Result<()> {
        match fault {
            None => self.word(b"yes"),
            Some(Verdict::WrongCount(parts)) => self.refutation(b"WrongCount", &[parts]),
            Some(Verdict::EmptyPart(part)) => self.refutation(b"EmptyPart", &[part]),
            Some(Verdict::Unknown(id)) => self.refutation(b"Unknown", &[id]),
            Some(Verdict::Twice(id)) => self.refutation(b"Twice", &[id]),
            Some(Verdict::Missing(id)) => self.refutation(b"Missing", &[id]),
            Some(Verdict::Overlap(first, second)) => self.refutation(b"Overlap", &[first, second]),
            Some(Verdict::NotCrowded(holds)) => self.refutation(b"NotCrowded", &[holds]),
        }
        self.end_record()
    }

    pub fn log(&mut self, log: &[Commit], tables: &[Table]) -> io::Result<()> {
        for (place, commit) in log.iter().enumerate() {
            self.word(b"commit");
            self.number(place as u64 + 1);
            self.word(b"1");
            self.word(match commit.kind {
                ChangeKind::Table => b"table",
                ChangeKind::Load => b"load",
                ChangeKind::Update => b"update",
                ChangeKind::Delete => b"delete",
            });
            self.word(&tables[commit.table].name);
            self.number(commit.counts.added.into());
            self.number(commit.counts.closed.into());
            self.end_record()?;
        }
        self.end(log.len())
    }

    fn end(&mut self, count: usize) -> io::Result<()> {
        self.word(b"end");
        self.number(count as u64);
        self.end_record()
    }

    fn refutation(&mut self, name: &[u8], numbers: &[u64]) {
        self.word(b"no");
        self.word(name);
        for number in numbers {
            self.number(*number);
        }
    }

    fn point(&mut self, point: Point) {
        self.written(|text| point.write(text));
    }

    fn period(&mut self, period: Period) {
        self.point(period.from);
        self.point(period.to);
    }

    fn values(&mut self, table: &Table, place: usize) {
        for column in &table.columns {
            self.value(column.values.get(place));
        }
    }

    fn value(&mut self, value: Value<'_>) {
        match value {
            Value::Int(number) => self.signed(number),
            Value::Text(text) => self.field(text),
        }
    }
}
