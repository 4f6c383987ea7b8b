//! CSV as the `csv` crate reads and writes it by default, with records of any length.

use std::io::{self, Write};
use std::ops::Range;

const QUOTE: u8 = b'"';
const BYTE_ORDER_MARK: &[u8] = b"\xEF\xBB\xBF";

/// Reads the records of a text one after another. Fields in quotes are unquoted where they stand.
pub struct Reader {
    text: Vec<u8>,
    at: usize,
    number: u64,
    fields: Vec<Range<usize>>,
}

/// A record of the text, which stays until the next one is read.
#[derive(Clone, Copy)]
pub struct Record<'a> {
    /// Its number, from 1 on.
    pub number: u64,
    text: &'a [u8],
    fields: &'a [Range<usize>],
}

impl<'a> Record<'a> {
    pub fn len(self) -> usize {
        self.fields.len()
    }

    pub fn get(self, place: usize) -> Option<&'a [u8]> {
        let field = self.fields.get(place)?;
        Some(&self.text[field.clone()])
    }

    /// The field at a place that is there.
    pub fn field(self, place: usize) -> &'a [u8] {
        &self.text[self.fields[place].clone()]
    }

    /// The record of these fields alone.
    pub fn range(self, places: Range<usize>) -> Record<'a> {
        Record {
            fields: &self.fields[places],
            ..self
        }
    }

    pub fn iter(self) -> impl Iterator<Item = &'a [u8]> {
        self.fields
            .iter()
            .map(move |field| &self.text[field.clone()])
    }

    /// Whether the first field is this word.
    pub fn begins(self, word: &[u8]) -> bool {
        self.get(0) == Some(word)
    }
}

impl Reader {
    pub fn new(text: Vec<u8>) -> Reader {
        let at = if text.starts_with(BYTE_ORDER_MARK) {
            BYTE_ORDER_MARK.len()
        } else {
            0
        };
        Reader {
            text,
            at,
            number: 0,
            fields: Vec::new(),
        }
    }

    /// The next record, if there is one.
    pub fn read(&mut self) -> Option<Record<'_>> {
        while let Some(b'\r' | b'\n') = self.text.get(self.at) {
            self.at += 1;
        }
        if self.at == self.text.len() {
            return None;
        }
        self.fields.clear();
        while self.read_field() {}
        self.number += 1;
        Some(self.last())
    }

    /// The record that was read last.
    pub fn last(&self) -> Record<'_> {
        Record {
            number: self.number,
            text: &self.text,
            fields: &self.fields,
        }
    }

    /// Reads a field, and says whether another one follows.
    fn read_field(&mut self) -> bool {
        if self.text.get(self.at) == Some(&QUOTE) {
            return self.read_quoted();
        }
        let end = self.at + plain_len(&self.text[self.at..]);
        self.end_field(self.at..end, end)
    }

    /// Reads a field that begins with a quote. Two quotes in it are one, and what stands behind its
    /// last quote belongs to it.
    fn read_quoted(&mut self) -> bool {
        let start = self.at + 1;
        let mut end = start;
        let mut at = start;
        loop {
            let rest = &self.text[at..];
            let len = rest
                .iter()
                .position(|byte| *byte == QUOTE)
                .unwrap_or(rest.len());
            self.text.copy_within(at..at + len, end);
            end += len;
            at = (at + len + 1).min(self.text.len());
            if self.text.get(at) != Some(&QUOTE) {
                break;
            }
            self.text[end] = QUOTE;
            end += 1;
            at += 1;
        }
        let len = plain_len(&self.text[at..]);
        self.text.copy_within(at..at + len, end);
        self.end_field(start..end + len, at + len)
    }

    /// Ends a field before the byte at a place, and says whether another field follows.
    fn end_field(&mut self, field: Range<usize>, place: usize) -> bool {
        self.fields.push(field);
        self.at = (place + 1).min(self.text.len());
        self.text.get(place) == Some(&b',')
    }
}

/// How many bytes come before one that ends a field without quotes.
fn plain_len(text: &[u8]) -> usize {
    let end = text
        .iter()
        .position(|byte| matches!(byte, b',' | b'\r' | b'\n'));
    end.unwrap_or(text.len())
}

/// The bytes that are kept before they are written.
const KEPT: usize = 65_536;

/// Writes records. Each field is written with a comma behind it, of which a record's last becomes
/// its line feed.
pub struct Writer<W> {
    out: W,
    text: Vec<u8>,
    held: Option<usize>,
}

impl<W: Write> Writer<W> {
    pub fn new(out: W) -> Writer<W> {
        Writer {
            out,
            text: Vec::with_capacity(2 * KEPT),
            held: None,
        }
    }

    /// Keeps the records that follow, until they are released or taken back.
    pub fn hold(&mut self) {
        self.held = Some(self.text.len());
    }

    pub fn release(&mut self) {
        self.held = None;
    }

    pub fn take_back(&mut self) {
        if let Some(len) = self.held.take() {
            self.text.truncate(len);
        }
    }

    /// Adds a field that needs no quotes.
    pub fn word(&mut self, field: &[u8]) {
        self.text.extend_from_slice(field);
        self.text.push(b',');
    }

    /// Adds a field that is written in its place and needs no quotes.
    pub fn written(&mut self, write: impl FnOnce(&mut Vec<u8>)) {
        write(&mut self.text);
        self.text.push(b',');
    }

    /// Adds a field, in quotes where it needs them.
    pub fn field(&mut self, field: &[u8]) {
        if !field
            .iter()
            .any(|byte| matches!(byte, b',' | b'"' | b'\r' | b'\n'))
        {
            return self.word(field);
        }
        self.text.push(QUOTE);
        for byte in field {
            if *byte == QUOTE {
                self.text.push(QUOTE);
            }
            self.text.push(*byte);
        }
        self.text.extend_from_slice(b"\",");
    }

    pub fn number(&mut self, mut number: u64) {
        let mut digits = [0; 20];
        let mut start = digits.len();
        loop {
            start -= 1;
            digits[start] = b'0' + (number % 10) as u8;
            number /= 10;
            if number == 0 {
                break;
            }
        }
        self.word(&digits[start..]);
    }

    pub fn signed(&mut self, number: i64) {
        if number < 0 {
            self.text.push(b'-');
        }
        self.number(number.unsigned_abs());
    }

    pub fn end_record(&mut self) -> io::Result<()> {
        if let Some(last) = self.text.last_mut() {
            *last = b'\n';
        }
        if self.text.len() > KEPT && self.held.is_none() {
            self.write()?;
        }
        Ok(())
    }

    /// Writes all records out.
    pub fn flush(&mut self) -> io::Result<()> {
        self.write()?;
        self.out.flush()
    }

    fn write(&mut self) -> io::Result<()> {
        self.out.write_all(&self.text)?;
        self.text.clear();
        Ok(())
    }
}

#[cfg(test)]
mod tests {
    use super::*;

    fn records(text: &[u8]) -> Vec<Vec<Vec<u8>>> {
        let mut reader = Reader::new(text.to_vec());
        let mut records = Vec::new();
        while let Some(record) = reader.read() {
            records.push(record.iter().map(<[u8]>::to_vec).collect());
        }
        records
    }

    fn assert_reads(text: &str, expected: &[&[&str]]) {
        let expected: Vec<Vec<Vec<u8>>> = expected
            .iter()
            .map(|fields| {
                fields
                    .iter()
                    .map(|field| field.as_bytes().to_vec())
                    .collect()
            })
            .collect();
        assert_eq!(records(text.as_bytes()), expected, "{text:?}");
    }

    #[test]
    fn records_are_read() {
        assert_reads("", &[]);
        assert_reads("\n\r\n\r", &[]);
        assert_reads("\u{feff}a,b", &[&["a", "b"]]);
        assert_reads("a,b\r\n\nc,\r", &[&["a", "b"], &["c", ""]]);
        assert_reads("a,", &[&["a", ""]]);
        assert_reads("\"\"\n,", &[&[""], &["", ""]]);
    }

    #[test]
    fn quotes_are_read() {
        assert_reads("\"a,\"\"b\"\"\n\",c", &[&["a,\"b\"\n", "c"]]);
        assert_reads("\"a\"b\"c,d", &[&["ab\"c", "d"]]);
        assert_reads("a\"b,\"c", &[&["a\"b", "c"]]);
        assert_reads("\"a\"\"", &[&["a\""]]);
        assert_reads("\"", &[&[""]]);
    }

    #[test]
    fn records_are_written() {
        let mut out = Vec::new();
        let mut writer = Writer::new(&mut out);
        writer.word(b"row");
        writer.signed(i64::MIN);
        writer.field(b"");
        writer.field(b"a \"b\", c");
        writer.end_record().unwrap();
        writer.flush().unwrap();
        assert_eq!(out, b"row,-9223372036854775808,,\"a \"\"b\"\", c\"\n");
    }
}
