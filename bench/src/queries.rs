//! The commands that change nothing.

use crate::aggregate::{Aggregate, Func};
use crate::answer::Answer;
use crate::anti;
use crate::book::Book;
use crate::check::{Certificate, Claim, first_fault};
use crate::csv::{Reader, Record};
use crate::divide::{Key, divide};
use crate::fields::{behind, commit, instant, is_end, name, natural, point, split_asof};
use crate::join::{self, Side};
use crate::refusal::{Fault, Refusal, Stop};
use crate::table::Table;
use crate::values::Kind;
use std::io::Write;

/// `rows,T`
pub fn rows<W: Write>(record: Record<'_>, book: &Book, answer: &mut Answer<W>) -> Result<(), Stop> {
    let (front, asof) = split_asof(record);
    let [table] = behind(front)?;
    let (table, asof) = (name(table)?, commit(asof)?);
    let (table, commit) = book.read(table, asof)?;
    Ok(answer.rows(table, table.shown(commit))?)
}

/// `at,T,POINT`
pub fn at<W: Write>(record: Record<'_>, book: &Book, answer: &mut Answer<W>) -> Result<(), Stop> {
    let (front, asof) = split_asof(record);
    let [table, at] = behind(front)?;
    let (table, at, asof) = (name(table)?, point(at)?, commit(asof)?);
    let (table, commit) = book.read(table, asof)?;
    Ok(answer.rows(table, table.shown_at(commit, at))?)
}

/// `between,T,M,N`
pub fn between<W: Write>(
    record: Record<'_>,
    book: &Book,
    answer: &mut Answer<W>,
) -> Result<(), Stop> {
    let [table, first, last] = behind(record)?;
    let (table, first, last) = (name(table)?, natural(first)?, natural(last)?);
    if first > last {
        return Err(Refusal::BadPeriod.into());
    }
    let (table, newest) = book.read(table, None)?;
    Ok(answer.versions(table, table.seen(first, last.min(newest)))?)
}

/// `fromto,T,M,N`
pub fn from_to<W: Write>(
    record: Record<'_>,
    book: &Book,
    answer: &mut Answer<W>,
) -> Result<(), Stop> {
    let [table, first, end] = behind(record)?;
    let (table, first, end) = (name(table)?, natural(first)?, natural(end)?);
    if first >= end {
        return Err(Refusal::BadPeriod.into());
    }
    let (table, newest) = book.read(table, None)?;
    Ok(answer.versions(table, table.seen(first, (end - 1).min(newest)))?)
}

/// `dip,T`
pub fn dip<W: Write>(record: Record<'_>, book: &Book, answer: &mut Answer<W>) -> Result<(), Stop> {
    let (front, asof) = split_asof(record);
    let [table] = behind(front)?;
    let (table, asof) = (name(table)?, commit(asof)?);
    let (table, commit) = book.read(table, asof)?;
    let rows = table
        .shown(commit)
        .map(|place| Key::new(table.period(place), place as u32 + 1));
    Ok(answer.division(&divide(rows.collect()))?)
}

/// The names of the columns that a join compares, a left and a right one in turn.
fn compared(front: Record<'_>) -> Result<Record<'_>, Refusal> {
    match front.len() {
        3 => Ok(front.range(3..3)),
        len if len >= 6 && len.is_multiple_of(2) && front.field(3) == b"on" => {
            Ok(front.range(4..len))
        }
        _ => Err(Refusal::BadCommand),
    }
}

/// The places of the columns of both tables, of one kind in each pair.
fn compared_columns(
    left: &Table,
    right: &Table,
    names: Record<'_>,
) -> Result<(Vec<usize>, Vec<usize>), Refusal> {
    let mut places = (Vec::new(), Vec::new());
    for pair in (0..names.len()).step_by(2) {
        let one = left.column(names.field(pair)).ok_or(Refusal::NoColumn)?;
        let other = right
            .column(names.field(pair + 1))
            .ok_or(Refusal::NoColumn)?;
        if left.columns[one].values.kind() != right.columns[other].values.kind() {
            return Err(Refusal::WrongKind);
        }
        places.0.push(one);
        places.1.push(other);
    }
    Ok(places)
}

/// What a record says of two tables, and behind `on` of a column of each for each pair that is compared.
fn sides<'a>(record: Record<'_>, book: &'a Book) -> Result<(Side<'a>, Side<'a>), Refusal> {
    let (front, asof) = split_asof(record);
    let names = compared(front)?;
    let (left, right) = (name(front.field(1))?, name(front.field(2))?);
    for column in names.iter() {
        name(column)?;
    }
    let asof = commit(asof)?;
    let (left, commit) = book.read(left, asof)?;
    let (right, _) = book.read(right, asof)?;
    let columns = compared_columns(left, right, names)?;
    let side = |table, columns| Side {
        table,
        commit,
        columns,
    };
    Ok((side(left, columns.0), side(right, columns.1)))
}

/// `join,L,R`, and behind `on` the columns.
pub fn join<W: Write>(record: Record<'_>, book: &Book, answer: &mut Answer<W>) -> Result<(), Stop> {
    let (left, right) = sides(record, book)?;
    let rows = join::join(&left, &right);
    Ok(answer.joined(left.table, right.table, &rows)?)
}

/// `anti,L,R`, and behind `on` the columns.
pub fn anti<W: Write>(record: Record<'_>, book: &Book, answer: &mut Answer<W>) -> Result<(), Stop> {
    let (left, right) = sides(record, book)?;
    let rows = anti::anti(&left, &right);
    Ok(answer.unmatched(left.table, &rows)?)
}

/// The function of a record of an aggregate, its column where it has one, and that behind `by`.
fn asked(front: Record<'_>) -> Result<(Func, Option<&[u8]>, Option<&[u8]>), Refusal> {
    let func = match (front.len() > 2).then(|| front.field(2)) {
        Some(b"count") => Func::Count,
        Some(b"sum") => Func::Sum,
        Some(b"min") => Func::Min,
        Some(b"max") => Func::Max,
        _ => return Err(Refusal::BadCommand),
    };
    let behind = if func == Func::Count { 3 } else { 4 };
    let column = (func != Func::Count && front.len() > 3).then(|| front.field(3));
    match front.len().checked_sub(behind) {
        Some(0) => Ok((func, column, None)),
        Some(2) if front.field(behind) == b"by" => {
            Ok((func, column, Some(front.field(behind + 1))))
        }
        _ => Err(Refusal::BadCommand),
    }
}

/// `agg,T,count` or `agg,T,FUNC,COLUMN`, and behind `by` a column.
pub fn agg<W: Write>(record: Record<'_>, book: &Book, answer: &mut Answer<W>) -> Result<(), Stop> {
    let (front, asof) = split_asof(record);
    let (func, column, by) = asked(front)?;
    let table = name(front.field(1))?;
    let (column, by) = (column.map(name).transpose()?, by.map(name).transpose()?);
    let (table, commit) = book.read(table, commit(asof)?)?;
    let place = |column| table.column(column).ok_or(Refusal::NoColumn);
    let column = column.map(place).transpose()?;
    if column.is_some_and(|column| table.columns[column].values.kind() != Kind::Int) {
        return Err(Refusal::WrongKind.into());
    }
    let by = by.map(place).transpose()?;
    let aggregate = Aggregate {
        table,
        commit,
        func,
        column,
        by,
    };
    Ok(answer.totals(&aggregate.totals())?)
}

/// `log`
pub fn log<W: Write>(record: Record<'_>, book: &Book, answer: &mut Answer<W>) -> Result<(), Stop> {
    let [] = behind(record)?;
    Ok(answer.log(&book.log, &book.tables)?)
}

/// What the record of a check says: the table's place, the commit that is read, and what is claimed.
pub struct Check {
    place: usize,
    commit: u64,
    certificate: Certificate,
}

impl Check {
    /// `check,T,PARTS,INSTANT`
    pub fn open(record: Record<'_>, book: &Book) -> Result<Check, Refusal> {
        let (front, asof) = split_asof(record);
        let [table, parts, crowded] = behind(front)?;
        let table = name(table)?;
        let certificate = Certificate {
            parts: natural(parts)?,
            instant: instant(crowded)?,
        };
        let (_, commit) = book.read(table, commit(asof)?)?;
        Ok(Check {
            place: book.place(table)?,
            commit,
            certificate,
        })
    }
}

fn add_part(claim: &mut Claim, record: Record<'_>) -> Result<(), Refusal> {
    if !record.begins(b"part") {
        return Err(Refusal::BadCommand);
    }
    for id in record.iter().skip(1) {
        claim.ids.push(natural(id)?);
    }
    claim.ends.push(claim.ids.len());
    Ok(())
}

/// The parts up to the end of the block that a check opens. Of several faults the first is reported.
pub fn read_claim(
    number: u64,
    opened: Result<Check, Refusal>,
    reader: &mut Reader,
) -> Result<(Check, Claim), Fault> {
    let mut claim = Claim::default();
    let mut fault = None;
    while let Some(record) = reader.read() {
        if is_end(record) {
            let check = opened.map_err(|refusal| Fault { number, refusal })?;
            return fault.map_or(Ok((check, claim)), Err);
        }
        if opened.is_ok() && fault.is_none() {
            let number = record.number;
            fault = add_part(&mut claim, record)
                .err()
                .map(|refusal| Fault { number, refusal });
        }
    }
    Err(Fault {
        number,
        refusal: Refusal::Unended,
    })
}

/// The verdict on a claim.
pub fn check<W: Write>(
    check: &Check,
    claim: &Claim,
    book: &Book,
    answer: &mut Answer<W>,
) -> std::io::Result<()> {
    let table = &book.tables[check.place];
    answer.verdict(first_fault(table, check.commit, claim, check.certificate))
}
