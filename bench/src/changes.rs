//! The commands that change tables: `table`, `load`, `update` and `delete`.

use crate::book::{Book, ChangeKind};
use crate::csv::{Reader, Record};
use crate::fields::{behind, is_end, name, period};
use crate::refusal::{Fault, Refusal};
use crate::table::{Column, Counts, LIMIT, Mark, Pair, Portion, Table, find};
use crate::values::{Kind, Value, Values};

const MAX_COLUMNS: usize = 16;

fn kind(word: &[u8]) -> Result<Kind, Refusal> {
    match word {
        b"int" => Ok(Kind::Int),
        b"text" => Ok(Kind::Text),
        _ => Err(Refusal::BadCommand),
    }
}

/// `table,T`, then a name and a kind for each column, and then `key` and the names of its columns.
pub fn make(record: Record<'_>, book: &mut Book) -> Result<(), Refusal> {
    let (front, key) = split_key(record)?;
    if front.len() < 2 || !front.len().is_multiple_of(2) {
        return Err(Refusal::BadCommand);
    }
    let mut columns = Vec::new();
    for place in (2..front.len()).step_by(2) {
        let values = Values::new(kind(front.field(place + 1))?);
        columns.push(Column::new(front.field(place), values));
    }
    let table = name(front.field(1))?;
    for column in columns.iter().map(|column| &*column.name).chain(key.iter()) {
        name(column)?;
    }
    if columns.len() > MAX_COLUMNS {
        return Err(Refusal::TooMany);
    }
    if (0..columns.len()).any(|place| find(&columns, &columns[place].name) != Some(place)) {
        return Err(Refusal::TwiceNamed);
    }
    let key = key_columns(&columns, key)?;
    book.make(Table::new(table, columns, key))
}

/// A record without its suffix `key,COLUMN..`, and the fields of these columns.
fn split_key(record: Record<'_>) -> Result<(Record<'_>, Record<'_>), Refusal> {
    let len = record.len();
    let end = (2..len)
        .step_by(2)
        .find(|place| record.field(*place) == b"key");
    match end {
        Some(end) if end + 1 == len => Err(Refusal::BadCommand),
        Some(end) => Ok((record.range(0..end), record.range(end + 1..len))),
        None => Ok((record, record.range(len..len))),
    }
}

/// The places of the columns of a key, where there is one.
fn key_columns(columns: &[Column], names: Record<'_>) -> Result<Vec<usize>, Refusal> {
    let mut places = Vec::new();
    for name in names.iter() {
        let place = find(columns, name).ok_or(Refusal::NoColumn)?;
        if places.contains(&place) {
            return Err(Refusal::TwiceNamed);
        }
        places.push(place);
    }
    Ok(places)
}

/// What the record of a load says, before its rows are looked at.
pub struct Load {
    place: usize,
    mark: Mark,
}

impl Load {
    pub fn open(record: Record<'_>, book: &Book) -> Result<Load, Refusal> {
        let [table] = behind(record)?;
        let place = book.place(name(table)?)?;
        Ok(Load {
            place,
            mark: book.tables[place].mark(),
        })
    }

    /// Adds the row of a record.
    pub fn row(&self, record: Record<'_>, book: &mut Book) -> Result<(), Refusal> {
        if !record.begins(b"row") {
            return Err(Refusal::BadCommand);
        }
        let commit = book.next_commit();
        let table = &mut book.tables[self.place];
        if record.len() != table.columns.len() + 3 {
            return Err(Refusal::WrongWidth);
        }
        table.push(commit, period(record.field(1), record.field(2))?);
        for (place, column) in table.columns.iter_mut().enumerate() {
            let value = Value::read(column.values.kind(), record.field(place + 3))?;
            column.values.push(value);
        }
        Ok(())
    }

    /// Accepts the rows, or takes them back where they are too many or two of one key overlap.
    pub fn close(self, book: &mut Book) -> Result<(), Refusal> {
        let is_full = book.is_full() || book.tables[self.place].len() > LIMIT;
        let kept = if is_full {
            Err(Refusal::Full)
        } else {
            book.tables[self.place].keep(&self.mark)
        };
        match kept {
            Ok(added) => {
                let added = added as u32;
                book.commit(ChangeKind::Load, self.place, Counts { added, closed: 0 });
                Ok(())
            }
            Err(refusal) => {
                self.take_back(book);
                Err(refusal)
            }
        }
    }

    pub fn take_back(self, book: &mut Book) {
        book.tables[self.place].take_back(&self.mark);
    }
}

/// Does a load, whose opening record says what comes in front. Of several faults the first is reported.
pub fn load(
    number: u64,
    opened: Result<Load, Refusal>,
    reader: &mut Reader,
    book: &mut Book,
) -> Result<(), Fault> {
    let mut fault = None;
    while let Some(record) = reader.read() {
        if is_end(record) {
            return close(number, opened, fault, book);
        }
        if let (Ok(load), None) = (&opened, &fault) {
            let number = record.number;
            fault = load
                .row(record, book)
                .err()
                .map(|refusal| Fault { number, refusal });
        }
    }
    if let Ok(load) = opened {
        load.take_back(book);
    }
    Err(Fault {
        number,
        refusal: Refusal::Unended,
    })
}

fn close(
    number: u64,
    opened: Result<Load, Refusal>,
    fault: Option<Fault>,
    book: &mut Book,
) -> Result<(), Fault> {
    let load = opened.map_err(|refusal| Fault { number, refusal })?;
    match fault {
        Some(fault) => {
            load.take_back(book);
            Err(fault)
        }
        None => load
            .close(book)
            .map_err(|refusal| Fault { number, refusal }),
    }
}

/// `update,T,FROM,TO,set,COLUMN,VALUE..` and then conditions.
pub fn update(record: Record<'_>, book: &mut Book) -> Result<(), Refusal> {
    if record.len() < 5 || record.field(4) != b"set" {
        return Err(Refusal::BadCommand);
    }
    let is_where = |place: &usize| record.len() - place >= 2 && record.field(*place) == b"where";
    let end = (5..record.len())
        .step_by(2)
        .find(is_where)
        .unwrap_or(record.len());
    let sets = record.range(5..end);
    let conditions = conditions(record.range(end..record.len()))?;
    if !are_pairs(sets) {
        return Err(Refusal::BadCommand);
    }
    change(record, ChangeKind::Update, Some(sets), conditions, book)
}

/// `delete,T,FROM,TO` and then conditions.
pub fn delete(record: Record<'_>, book: &mut Book) -> Result<(), Refusal> {
    if record.len() < 4 {
        return Err(Refusal::BadCommand);
    }
    let conditions = conditions(record.range(4..record.len()))?;
    change(record, ChangeKind::Delete, None, conditions, book)
}

fn are_pairs(record: Record<'_>) -> bool {
    record.len() > 0 && record.len().is_multiple_of(2)
}

/// The fields of conditions: none, or pairs behind `where`.
fn conditions(record: Record<'_>) -> Result<Record<'_>, Refusal> {
    if record.len() == 0 {
        return Ok(record);
    }
    let pairs = record.range(1..record.len());
    if record.begins(b"where") && are_pairs(pairs) {
        Ok(pairs)
    } else {
        Err(Refusal::BadCommand)
    }
}

fn change(
    record: Record<'_>,
    kind: ChangeKind,
    sets: Option<Record<'_>>,
    conditions: Record<'_>,
    book: &mut Book,
) -> Result<(), Refusal> {
    let table = name(record.field(1))?;
    sets.map_or(Ok(()), check_names)?;
    check_names(conditions)?;
    let period = period(record.field(2), record.field(3))?;
    let place = book.place(table)?;
    let table = &book.tables[place];
    let portion = Portion {
        period,
        sets: sets.map(|sets| pairs(table, sets)).transpose()?,
        conditions: pairs(table, conditions)?,
    };
    if book.is_full() {
        return Err(Refusal::Full);
    }
    let commit = book.next_commit();
    let counts = book.tables[place].change(commit, &portion)?;
    book.commit(kind, place, counts);
    Ok(())
}

fn check_names(record: Record<'_>) -> Result<(), Refusal> {
    record
        .iter()
        .step_by(2)
        .try_for_each(|column| name(column).map(|_| ()))
}

/// The values of pairs in a table's columns.
fn pairs<'a>(table: &Table, record: Record<'a>) -> Result<Vec<Pair<'a>>, Refusal> {
    let pair = |place: usize| {
        let column = table.column(record.field(place)).ok_or(Refusal::NoColumn)?;
        let kind = table.columns[column].values.kind();
        let value = Value::read(kind, record.field(place + 1))?;
        Ok(Pair { column, value })
    };
    (0..record.len()).step_by(2).map(pair).collect()
}
