//! Tables: all versions of their rows, by columns. The version at place i has the id i + 1.

use crate::key::{Key, Version};
use crate::point::{Period, Point};
use crate::refusal::Refusal;
use crate::values::{Value, Values};
use std::collections::HashMap;

/// The most versions of a table.
pub const LIMIT: usize = 1_000_000;

/// The end of a version that no commit has closed.
const OPEN: u32 = u32::MAX;

#[derive(Debug)]
pub struct Column {
    pub name: Box<[u8]>,
    pub values: Values,
    /// The places of the open versions, and of some closed ones, by the hash of their values, from
    /// the first condition on the column on.
    index: Option<HashMap<u64, Vec<u32>>>,
}

/// The commits from one on and before another.
#[derive(Clone, Copy, Debug)]
pub struct Span {
    pub from: u32,
    to: u32,
}

impl Span {
    pub fn to(self) -> Option<u32> {
        (self.to != OPEN).then_some(self.to)
    }

    fn holds(self, commit: u64) -> bool {
        u64::from(self.from) <= commit && self.is_behind(commit)
    }

    fn is_behind(self, commit: u64) -> bool {
        self.to == OPEN || commit < u64::from(self.to)
    }
}

/// A value for a column, or a condition on it.
pub struct Pair<'a> {
    pub column: usize,
    pub value: Value<'a>,
}

/// A change of a portion of time, without settings where it deletes.
pub struct Portion<'a> {
    pub period: Period,
    pub sets: Option<Vec<Pair<'a>>>,
    pub conditions: Vec<Pair<'a>>,
}

/// How many versions a change made and closed.
#[derive(Clone, Copy, Debug)]
pub struct Counts {
    pub added: u32,
    pub closed: u32,
}

#[derive(Debug)]
pub struct Table {
    pub name: Box<[u8]>,
    pub columns: Vec<Column>,
    key: Option<Key>,
    periods: Vec<Period>,
    spans: Vec<Span>,
    /// The open versions, by place, and at most as many closed ones.
    open: Vec<OpenVersion>,
    open_count: usize,
}

#[derive(Clone, Copy, Debug)]
struct OpenVersion {
    place: u32,
    period: Period,
}

/// Where a table ends, to take back what is added.
pub struct Mark {
    versions: usize,
    bytes: Vec<usize>,
}

impl Column {
    pub fn new(name: &[u8], values: Values) -> Column {
        Column {
            name: name.into(),
            values,
            index: None,
        }
    }

    fn index_from(&mut self, first: usize, end: usize) {
        if let Some(index) = &mut self.index {
            for place in first..end {
                index
                    .entry(self.values.get(place).hash())
                    .or_default()
                    .push(place as u32);
            }
        }
    }
}

/// The place of the column of a name.
pub fn find(columns: &[Column], name: &[u8]) -> Option<usize> {
    columns.iter().position(|column| *column.name == *name)
}

impl Table {
    /// A table of these columns, and with a key of those at some places, if there are any.
    pub fn new(name: &[u8], columns: Vec<Column>, key: Vec<usize>) -> Table {
        Table {
            name: name.into(),
            columns,
            key: (!key.is_empty()).then(|| Key::new(key)),
            periods: Vec::new(),
            spans: Vec::new(),
            open: Vec::new(),
            open_count: 0,
        }
    }

    /// How many versions there are.
    pub fn len(&self) -> usize {
        self.periods.len()
    }

    pub fn column(&self, name: &[u8]) -> Option<usize> {
        find(&self.columns, name)
    }

    pub fn period(&self, place: usize) -> Period {
        self.periods[place]
    }

    pub fn span(&self, place: usize) -> Span {
        self.spans[place]
    }

    /// The places of the versions that a commit shows.
    pub fn shown(&self, commit: u64) -> impl Iterator<Item = usize> {
        let spans = self.spans.iter().enumerate();
        spans
            .filter(move |(_, span)| span.holds(commit))
            .map(|(place, _)| place)
    }

    /// The places of those that hold at a point.
    pub fn shown_at(&self, commit: u64, point: Point) -> impl Iterator<Item = usize> {
        let periods = self.periods.iter().enumerate();
        periods
            .filter(move |(place, period)| period.holds(point) && self.spans[*place].holds(commit))
            .map(|(place, _)| place)
    }

    /// Whether a commit shows the version at a place.
    pub fn shows(&self, commit: u64, place: usize) -> bool {
        self.spans.get(place).is_some_and(|span| span.holds(commit))
    }

    /// The places of the versions that some commit from the first to the last shows.
    pub fn seen(&self, first: u64, last: u64) -> impl Iterator<Item = usize> {
        let spans = self.spans.iter().enumerate();
        spans
            .filter(move |(_, span)| u64::from(span.from) <= last && span.is_behind(first))
            .map(|(place, _)| place)
    }

    // Loads

    pub fn mark(&self) -> Mark {
        Mark {
            versions: self.len(),
            bytes: self
                .columns
                .iter()
                .map(|column| column.values.bytes_len())
                .collect(),
        }
    }

    /// Adds a version of this period; its values are pushed to the columns.
    pub fn push(&mut self, commit: u32, period: Period) {
        self.periods.push(period);
        self.spans.push(Span {
            from: commit,
            to: OPEN,
        });
    }

    /// Keeps what was added since the mark, and says how many versions that is.
    pub fn keep(&mut self, mark: &Mark) -> Result<usize, Refusal> {
        self.exchange_keys(&[], mark.versions)?;
        Ok(self.keep_from(mark.versions))
    }

    fn keep_from(&mut self, first: usize) -> usize {
        let end = self.len();
        let period = |place: usize| self.periods[place];
        self.open.extend((first..end).map(|place| OpenVersion {
            place: place as u32,
            period: period(place),
        }));
        self.open_count += end - first;
        for column in &mut self.columns {
            column.index_from(first, end);
        }
        end - first
    }

    /// Takes back what was added since the mark, of which the last row may lack values.
    pub fn take_back(&mut self, mark: &Mark) {
        self.periods.truncate(mark.versions);
        self.spans.truncate(mark.versions);
        for (column, bytes_len) in self.columns.iter_mut().zip(&mark.bytes) {
            column.values.truncate(mark.versions, *bytes_len);
        }
    }

    /// Takes the closed versions out of the key, and opens those from a place on in it. Where one of
    /// these overlaps another, the key is as it was before.
    fn exchange_keys(&mut self, closed: &[u32], first: usize) -> Result<(), Refusal> {
        let Some(key) = &mut self.key else {
            return Ok(());
        };
        let version = |place: usize| Version {
            columns: &self.columns,
            place,
            period: self.periods[place],
        };
        for place in closed {
            key.close(version(*place as usize));
        }
        let opened = first..self.periods.len();
        let Some(overlap) = opened.clone().find(|place| !key.open(version(*place))) else {
            return Ok(());
        };
        for place in first..overlap {
            key.close(version(place));
        }
        for place in closed {
            key.open(version(*place as usize));
        }
        Err(Refusal::KeyOverlap)
    }

    // Changes of a portion

    /// Makes a change of a portion, unless the versions would be too many or two of one key overlap.
    pub fn change(&mut self, commit: u32, portion: &Portion<'_>) -> Result<Counts, Refusal> {
        let taken = self.touched(portion);
        let parts: usize = taken
            .iter()
            .map(|place| self.count_parts(*place, portion))
            .sum();
        if self.len() + parts > LIMIT {
            return Err(Refusal::Full);
        }
        let mark = self.mark();
        let sets = portion.sets.as_ref().map(|sets| self.by_column(sets));
        let mut first_set = None;
        for place in &taken {
            self.replace(
                commit,
                *place as usize,
                portion.period,
                sets.as_deref(),
                &mut first_set,
            );
        }
        if let Err(refusal) = self.exchange_keys(&taken, mark.versions) {
            self.reopen(&taken);
            self.take_back(&mark);
            return Err(refusal);
        }
        let added = self.keep_from(mark.versions);
        self.forget_closed(taken.len());
        Ok(Counts {
            added: added as u32,
            closed: taken.len() as u32,
        })
    }

    /// The places of the open versions that meet all conditions and overlap the portion.
    fn touched(&mut self, portion: &Portion<'_>) -> Vec<u32> {
        let mut places = match portion.conditions.first() {
            Some(condition) => self.with_value(condition),
            None => self.overlapping(portion.period),
        };
        places.retain(|place| self.is_touched(*place as usize, portion));
        places
    }

    /// The places of the open versions that may have a value, by the index, which this makes at first.
    fn with_value(&mut self, condition: &Pair<'_>) -> Vec<u32> {
        let column = &mut self.columns[condition.column];
        if column.index.is_none() {
            column.index = Some(HashMap::new());
            column.index_from(0, self.periods.len());
        }
        let found = column
            .index
            .as_mut()
            .and_then(|index| index.get_mut(&condition.value.hash()));
        let Some(places) = found else {
            return Vec::new();
        };
        places.retain(|place| self.spans[*place as usize].to == OPEN);
        places.clone()
    }

    /// The places of the versions that may be open and overlap a period.
    fn overlapping(&self, period: Period) -> Vec<u32> {
        let overlaps = |version: &&OpenVersion| version.period.overlaps(period);
        // Few blocks have such a version, and to ask a whole block takes no branch for each version.
        let blocks = self
            .open
            .chunks(64)
            .filter(|block| block.iter().filter(overlaps).count() > 0);
        blocks
            .flatten()
            .filter(overlaps)
            .map(|version| version.place)
            .collect()
    }

    fn is_touched(&self, place: usize, portion: &Portion<'_>) -> bool {
        let meets = |pair: &Pair<'_>| self.columns[pair.column].values.get(place) == pair.value;
        self.spans[place].to == OPEN
            && self.periods[place].overlaps(portion.period)
            && portion.conditions.iter().all(meets)
    }

    fn reopen(&mut self, places: &[u32]) {
        for place in places {
            self.spans[*place as usize].to = OPEN;
        }
    }

    /// Forgets the closed versions among the open ones where they are the most.
    fn forget_closed(&mut self, closed: usize) {
        self.open_count -= closed;
        if self.open.len() > 2 * self.open_count {
            self.open
                .retain(|version| self.spans[version.place as usize].to == OPEN);
        }
    }

    fn count_parts(&self, place: u32, portion: &Portion<'_>) -> usize {
        let period = self.periods[place as usize];
        usize::from(period.before(portion.period).is_some())
            + usize::from(portion.sets.is_some())
            + usize::from(period.after(portion.period).is_some())
    }

    /// The value that is set in each column; the last of several stands.
    fn by_column<'a>(&self, sets: &[Pair<'a>]) -> Vec<Option<Value<'a>>> {
        let mut values = vec![None; self.columns.len()];
        for set in sets {
            values[set.column] = Some(set.value);
        }
        values
    }

    /// Closes a version, and adds its parts. The first version with the settings is kept in mind, and
    /// the later ones repeat its values.
    fn replace(
        &mut self,
        commit: u32,
        place: usize,
        portion: Period,
        sets: Option<&[Option<Value<'_>>]>,
        first_set: &mut Option<usize>,
    ) {
        let period = self.periods[place];
        self.spans[place].to = commit;
        if let Some(before) = period.before(portion) {
            self.push_copy(commit, place, before);
        }
        if let (Some(sets), Some(inside)) = (sets, period.meet(portion)) {
            self.push_set(commit, place, inside, sets, *first_set);
            first_set.get_or_insert(self.len() - 1);
        }
        if let Some(after) = period.after(portion) {
            self.push_copy(commit, place, after);
        }
    }

    fn push_copy(&mut self, commit: u32, place: usize, period: Period) {
        self.push(commit, period);
        for column in &mut self.columns {
            column.values.repeat(place);
        }
    }

    fn push_set(
        &mut self,
        commit: u32,
        place: usize,
        period: Period,
        sets: &[Option<Value<'_>>],
        first_set: Option<usize>,
    ) {
        self.push(commit, period);
        for (column, set) in self.columns.iter_mut().zip(sets) {
            match (set, first_set) {
                (Some(_), Some(first)) => column.values.repeat(first),
                (Some(value), None) => column.values.push(*value),
                (None, _) => column.values.repeat(place),
            }
        }
    }
}
