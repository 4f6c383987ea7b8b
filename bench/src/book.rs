//! The tables, and what each commit did.

use crate::refusal::Refusal;
use crate::table::{Counts, Table};

/// The most commits.
const LIMIT: usize = 1_000_000;

const MAX_TABLES: usize = 64;

#[derive(Clone, Copy, Debug)]
pub enum ChangeKind {
    Table,
    Load,
    Update,
    Delete,
}

/// A commit: what it did to the table at a place.
#[derive(Debug)]
pub struct Commit {
    pub kind: ChangeKind,
    pub table: usize,
    pub counts: Counts,
}

#[derive(Debug, Default)]
pub struct Book {
    pub tables: Vec<Table>,
    pub log: Vec<Commit>,
    shown: Option<u64>,
}

impl Book {
    pub fn commits(&self) -> u64 {
        self.log.len() as u64
    }

    /// From now on queries read what stands now, whatever is loaded, until it is released.
    pub fn hold(&mut self) {
        self.shown = Some(self.commits());
    }

    pub fn release(&mut self) {
        self.shown = None;
    }

    /// The number of the next commit.
    pub fn next_commit(&self) -> u32 {
        self.log.len() as u32 + 1
    }

    pub fn is_full(&self) -> bool {
        self.log.len() >= LIMIT
    }

    pub fn commit(&mut self, kind: ChangeKind, table: usize, counts: Counts) {
        self.log.push(Commit {
            kind,
            table,
            counts,
        });
    }

    /// The place of the table of a name.
    pub fn place(&self, name: &[u8]) -> Result<usize, Refusal> {
        let place = self.tables.iter().position(|table| *table.name == *name);
        place.ok_or(Refusal::NoTable)
    }

    /// The table of a name, and the commit to read of it: the newest where none is named.
    pub fn read(&self, name: &[u8], commit: Option<u64>) -> Result<(&Table, u64), Refusal> {
        let newest = self.shown.unwrap_or(self.commits());
        let commit = commit.unwrap_or(newest);
        if commit > newest {
            return Err(Refusal::Future);
        }
        Ok((&self.tables[self.place(name)?], commit))
    }

    /// Adds a table.
    pub fn make(&mut self, table: Table) -> Result<(), Refusal> {
        if self.place(&table.name).is_ok() {
            return Err(Refusal::TableExists);
        }
        if self.tables.len() >= MAX_TABLES {
            return Err(Refusal::TooMany);
        }
        if self.is_full() {
            return Err(Refusal::Full);
        }
        self.tables.push(table);
        let counts = Counts {
            added: 0,
            closed: 0,
        };
        self.commit(ChangeKind::Table, self.tables.len() - 1, counts);
        Ok(())
    }
}
