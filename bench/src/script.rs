//! Runs a script.

use crate::answer::Answer;
use crate::book::Book;
use crate::changes::{self, Load};
use crate::csv::{Reader, Record};
use crate::fields::is_end;
use crate::queries::{self, Check};
use crate::refusal::{Fault, Refusal, Stop};
use std::io::{self, Write};

/// The most bytes of a script.
pub const LIMIT: usize = 67_108_864;

struct Session<W: Write> {
    reader: Reader,
    book: Book,
    answer: Answer<W>,
    errors: u64,
}

/// Answers the commands of a script in order, and says how many were refused.
pub fn run(script: Vec<u8>, out: impl Write) -> io::Result<u64> {
    let mut session = Session {
        reader: Reader::new(script),
        book: Book::default(),
        answer: Answer::new(out),
        errors: 0,
    };
    while session.answer_next()? {}
    session.answer.flush()?;
    Ok(session.errors)
}

impl<W: Write> Session<W> {
    /// Answers the next command or block of commands, if there is one.
    fn answer_next(&mut self) -> io::Result<bool> {
        match self.reader.read() {
            None => return Ok(false),
            Some(record) if record.begins(b"together") => self.answer_block()?,
            Some(_) => self.answer_command()?,
        }
        Ok(true)
    }

    /// Answers the block of commands that the last record opens. Its queries read what stands before it.
    fn answer_block(&mut self) -> io::Result<()> {
        let opening = self.reader.last();
        let (number, is_done) = (opening.number, opening.len() == 1);
        let errors = self.errors;
        self.book.hold();
        self.answer.hold();
        if is_done {
            self.answer.together(self.book.commits())?;
        }
        let is_ended = self.answer_commands(is_done)?;
        self.book.release();
        if is_ended && is_done {
            self.answer.release();
            return Ok(());
        }
        self.answer.take_back();
        self.errors = errors;
        let refusal = if is_ended {
            Refusal::BadCommand
        } else {
            Refusal::Unended
        };
        self.refuse(Fault { number, refusal })
    }

    /// Answers the commands of a block, or skips them, and says whether it has its end.
    fn answer_commands(&mut self, is_done: bool) -> io::Result<bool> {
        let mut has_load = false;
        while let Some(record) = self.reader.read() {
            let number = record.number;
            if is_end(record) {
                return Ok(true);
            } else if !is_done {
                self.skip_command();
            } else if is_barred(record, has_load) {
                self.skip_command();
                let refusal = Refusal::NotInBlock;
                self.refuse(Fault { number, refusal })?;
            } else {
                has_load |= record.begins(b"load");
                self.answer_command()?;
            }
        }
        Ok(false)
    }

    /// Reads the rest of the command that the last record begins.
    fn skip_command(&mut self) {
        let record = self.reader.last();
        if record.begins(b"load") || record.begins(b"check") {
            while self.reader.read().is_some_and(|record| !is_end(record)) {}
        }
    }

    /// Answers the command that the last record begins.
    fn answer_command(&mut self) -> io::Result<()> {
        let record = self.reader.last();
        let number = record.number;
        match record.field(0) {
            b"load" => {
                let opened = Load::open(record, &self.book);
                let done = changes::load(number, opened, &mut self.reader, &mut self.book);
                self.accept(done)?;
            }
            b"check" => {
                let opened = Check::open(record, &self.book);
                match queries::read_claim(number, opened, &mut self.reader) {
                    Ok((check, claim)) => {
                        queries::check(&check, &claim, &self.book, &mut self.answer)?;
                    }
                    Err(fault) => self.refuse(fault)?,
                }
            }
            _ => match answer_record(record, &mut self.book, &mut self.answer) {
                Ok(()) => {}
                Err(Stop::Refused(refusal)) => self.refuse(Fault { number, refusal })?,
                Err(Stop::Write(error)) => return Err(error),
            },
        }
        Ok(())
    }

    fn accept(&mut self, done: Result<(), Fault>) -> io::Result<()> {
        match done {
            Ok(()) => self.answer.accepted(self.book.commits()),
            Err(fault) => self.refuse(fault),
        }
    }

    fn refuse(&mut self, fault: Fault) -> io::Result<()> {
        self.errors += 1;
        self.answer.refused(fault)
    }
}

/// Whether a command that begins with this record has no place in a block, where a load stands before it or none.
fn is_barred(opening: Record<'_>, has_load: bool) -> bool {
    match opening.field(0) {
        b"table" | b"update" | b"delete" | b"log" | b"together" => true,
        b"load" => has_load,
        _ => false,
    }
}

/// Answers a command of one record, or writes nothing where it is refused.
fn answer_record<W: Write>(
    record: Record<'_>,
    book: &mut Book,
    answer: &mut Answer<W>,
) -> Result<(), Stop> {
    match record.field(0) {
        b"table" => changes::make(record, book)?,
        b"update" => changes::update(record, book)?,
        b"delete" => changes::delete(record, book)?,
        b"rows" => return queries::rows(record, book, answer),
        b"at" => return queries::at(record, book, answer),
        b"between" => return queries::between(record, book, answer),
        b"fromto" => return queries::from_to(record, book, answer),
        b"dip" => return queries::dip(record, book, answer),
        b"join" => return queries::join(record, book, answer),
        b"anti" => return queries::anti(record, book, answer),
        b"agg" => return queries::agg(record, book, answer),
        b"log" => return queries::log(record, book, answer),
        _ => return Err(Refusal::BadCommand.into()),
    }
    Ok(answer.accepted(book.commits())?)
}
