//! Writes a script of a kind, the same one for the same words:
//!
//!     generate KIND [--rows N] [--overlap N] [--columns N] [--key N] [--groups N] [--updates N] [--queries N]
//!         [--seed N]
//!
//! Rows start on random days of a range that grows with their number, so that on each day about
//! `overlap` of them hold. Columns are a text and a number in turn, of which the first is the row's own
//! name; the first `key` of them are the table's key. Most kinds begin with the table, and then:
//!
//! - `rows`, `at`, `dip`, `log`: a load of the rows, and so many queries;
//! - `between`: a load of the rows, a change of all of them, and queries for all versions;
//! - `singles`: so many loads of one row;
//! - `turns`: so many loads of one row, all of one name, each on the day behind the one before;
//! - `named`: a load of the rows, and so many updates of one row, found by its name;
//! - `renamed`: a load of the rows, and so many updates that give one row another name;
//! - `portions`: a load of the rows, and so many updates of a portion of 30 days, without conditions;
//! - `past`: a load of half of the rows, a change of all of them, and queries as of the load.
//!
//! A script of `join` or `anti` has two tables with so many rows each, and so many joins or anti-joins of them: by
//! their one column, which is one of so many numbers as there are groups, or without columns where these are 0. One
//! of `agg` has a table of groups of equal size and of numbers, and so many sums of these by groups, or of all where
//! there are 0. One of `payroll-join` or `payroll-anti` has contracts and pay of so many persons, nearly all of whom hold
//! at once for ten years: one to three contracts of each person, one after another, and ten rows of pay; joined by the
//! person, or the pay without a contract. One of `together` has two tables to join whose rows all hold on one day, so
//! each row is a part of its own, and without columns each row joins each. One of `apart` has two tables without columns,
//! whose rows hold on one day, another one for each table, but for one row of either that holds on both days.
//! One of `random` has a few tables, and changes and queries of all kinds, some of which are refused; one of `damaged` is
//! such a script of which bytes were changed, records cut or left out.
//!
//! A script of `large-bare`, `large-few`, `large-many`, `large-half`, `large-each`, `large-at-once` or `large-apart` has two
//! tables of so many rows each, a join of them, an anti-join of either, and all aggregates; one of `large-groups` has one
//! table, and its aggregates. How their rows lie among values and in time stands where they are made.

use bench::large::{self, Shape};
use bench::numbers::Numbers;
use bench::point::Point;
use bench::random;
use std::collections::BTreeSet;
use std::fmt::Display;
use std::io::{self, BufWriter, Write};

/// The days from 0001-01-01 to 9999-12-31.
const LAST_DAY: u64 = 3_652_058;

/// Days of the range for each row.
const SPREAD: u64 = 3;

/// The days from 0001-01-01 to a payroll's first, 2015-01-01, and those from there to its end.
const HIRED: u64 = 735_598;
const EMPLOYED: u64 = 3_652;

const SURNAMES: [&str; 8] = [
    "Byron",
    "Hill",
    "Hopper",
    "Lovelace",
    "Noether",
    "Somerville",
    "Turing",
    "Wilkes",
];

struct Options {
    rows: u64,
    overlap: u64,
    columns: u64,
    key: u64,
    groups: u64,
    updates: u64,
    queries: u64,
    seed: u64,
}

struct Script<W: Write> {
    out: W,
    options: Options,
    numbers: Numbers,
}

impl<W: Write> Script<W> {
    fn day(&self, days: u64) -> impl Display + use<W> {
        let mut text = Vec::new();
        Point::FIRST
            .after_days(days.min(LAST_DAY) as u32)
            .write(&mut text);
        String::from_utf8_lossy(&text).into_owned()
    }

    fn range(&self) -> u64 {
        self.options.rows * SPREAD
    }

    fn table(&mut self) -> io::Result<()> {
        write!(self.out, "table,t")?;
        for column in 0..self.options.columns {
            let kind = if column % 2 == 0 { "text" } else { "int" };
            write!(self.out, ",c{column},{kind}")?;
        }
        for column in 0..self.options.key {
            let word = if column == 0 { ",key" } else { "" };
            write!(self.out, "{word},c{column}")?;
        }
        writeln!(self.out)
    }

    fn period(&mut self) -> io::Result<()> {
        let from = self.numbers.below(self.range());
        let len = 1 + self.numbers.below(2 * SPREAD * self.options.overlap - 1);
        write!(self.out, "row,{},{}", self.day(from), self.day(from + len))
    }

    /// A period that holds the day in the middle of the range, as all others do.
    fn period_of_all(&mut self) -> io::Result<()> {
        let middle = self.range() / 2;
        let from = self.numbers.below(middle + 1);
        let to = middle + 1 + self.numbers.below(middle + 1);
        write!(self.out, "row,{},{}", self.day(from), self.day(to))
    }

    fn row(&mut self, number: u64) -> io::Result<()> {
        self.period()?;
        for column in 0..self.options.columns {
            match column {
                0 => write!(self.out, ",{}", name_of(number))?,
                _ if column % 2 == 0 => write!(self.out, ",text{}", self.numbers.below(1000))?,
                _ => write!(self.out, ",{}", self.numbers.below(100_000))?,
            }
        }
        writeln!(self.out)
    }

    fn load(&mut self, rows: u64) -> io::Result<()> {
        writeln!(self.out, "load,t")?;
        for number in 0..rows {
            self.row(number)?;
        }
        writeln!(self.out, "end")
    }

    fn singles(&mut self) -> io::Result<()> {
        for number in 0..self.options.updates {
            writeln!(self.out, "load,t")?;
            self.row(number)?;
            writeln!(self.out, "end")?;
        }
        Ok(())
    }

    fn turns(&mut self) -> io::Result<()> {
        for number in 0..self.options.updates {
            let (from, to) = (self.day(number), self.day(number + 1));
            let name = name_of(0);
            writeln!(self.out, "load,t\nrow,{from},{to},{name},{number}\nend")?;
        }
        Ok(())
    }

    fn named(&mut self) -> io::Result<()> {
        for _ in 0..self.options.updates {
            let name = name_of(self.numbers.below(self.options.rows));
            let number = self.numbers.below(100_000);
            writeln!(
                self.out,
                "update,t,0001-01-01,9999-12-31,set,c1,{number},where,c0,{name}"
            )?;
        }
        Ok(())
    }

    fn renamed(&mut self) -> io::Result<()> {
        let rows = self.options.rows;
        for update in 0..self.options.updates {
            let (old, new) = (name_of(update), name_of(rows + update));
            writeln!(
                self.out,
                "update,t,0001-01-01,9999-12-31,set,c0,{new},where,c0,{old}"
            )?;
        }
        Ok(())
    }

    fn portions(&mut self) -> io::Result<()> {
        for _ in 0..self.options.updates {
            let from = self.numbers.below(self.range());
            let number = self.numbers.below(100_000);
            let (from, to) = (self.day(from), self.day(from + 30));
            writeln!(self.out, "update,t,{from},{to},set,c1,{number}")?;
        }
        Ok(())
    }

    fn sides(&mut self, period: fn(&mut Self) -> io::Result<()>) -> io::Result<()> {
        let groups = self.options.groups;
        let column = if groups == 0 { "" } else { ",c,int" };
        for table in ["t", "u"] {
            writeln!(self.out, "table,{table}{column}\nload,{table}")?;
            for _ in 0..self.options.rows {
                period(self)?;
                if groups > 0 {
                    write!(self.out, ",{}", self.numbers.below(groups))?;
                }
                writeln!(self.out)?;
            }
            writeln!(self.out, "end")?;
        }
        Ok(())
    }

    /// Two tables, and joins or anti-joins of them.
    fn compared(&mut self, word: &str, period: fn(&mut Self) -> io::Result<()>) -> io::Result<()> {
        self.sides(period)?;
        let columns = if self.options.groups == 0 {
            ""
        } else {
            ",on,c,c"
        };
        self.queries(&format!("{word},t,u{columns}"))
    }

    fn aggregate(&mut self) -> io::Result<()> {
        let groups = self.options.groups;
        writeln!(self.out, "table,t,c,int,n,int\nload,t")?;
        for number in 0..self.options.rows {
            self.period()?;
            let amount = self.numbers.below(100_000);
            writeln!(self.out, ",{},{amount}", number % groups.max(1))?;
        }
        writeln!(self.out, "end")?;
        self.queries(if groups == 0 {
            "agg,t,sum,n"
        } else {
            "agg,t,sum,n,by,c"
        })
    }

    /// Rows of one person, each from the end of the one before it, one more than there are cuts.
    fn career(&mut self, person: u64, cuts: usize) -> io::Result<()> {
        let mut ends = BTreeSet::from([EMPLOYED]);
        while ends.len() <= cuts {
            ends.insert(1 + self.numbers.below(EMPLOYED - 1));
        }
        let mut from = 0;
        for to in ends {
            let (start, end) = (self.day(HIRED + from), self.day(HIRED + to));
            let number = self.numbers.below(10_000);
            writeln!(self.out, "row,{start},{end},{person},{number}")?;
            from = to;
        }
        Ok(())
    }

    fn payroll(&mut self, query: &str) -> io::Result<()> {
        for table in ["contract", "pay"] {
            writeln!(
                self.out,
                "table,{table},person,int,n,int,key,person\nload,{table}"
            )?;
            for person in 0..self.options.rows {
                let cuts = if table == "pay" {
                    9
                } else {
                    self.numbers.below(3)
                };
                self.career(person, cuts as usize)?;
            }
            writeln!(self.out, "end")?;
        }
        self.queries(query)
    }

    fn apart(&mut self) -> io::Result<()> {
        for (day, table) in ["t", "u"].into_iter().enumerate() {
            writeln!(self.out, "table,{table}\nload,{table}")?;
            let (from, to) = (self.day(day as u64), self.day(day as u64 + 1));
            for _ in 1..self.options.rows {
                writeln!(self.out, "row,{from},{to}")?;
            }
            writeln!(self.out, "row,{},{}", self.day(0), self.day(2))?;
            writeln!(self.out, "end")?;
        }
        self.queries("join,t,u")
    }

    fn change_all(&mut self) -> io::Result<()> {
        writeln!(self.out, "update,t,0001-01-01,9999-12-31,set,c1,0")
    }

    fn queries(&mut self, query: &str) -> io::Result<()> {
        for _ in 0..self.options.queries {
            writeln!(self.out, "{query}")?;
        }
        Ok(())
    }

    fn days(&mut self) -> io::Result<()> {
        for _ in 0..self.options.queries {
            let day = self.numbers.below(self.range());
            writeln!(self.out, "at,t,{}", self.day(day))?;
        }
        Ok(())
    }

    fn write(&mut self, kind: &str) -> io::Result<()> {
        let rows = self.options.rows;
        let makes_its_tables = [
            "join",
            "anti",
            "agg",
            "payroll-join",
            "payroll-anti",
            "together",
            "apart",
            "random",
            "damaged",
        ];
        let large = Shape::of_kind(kind);
        if !makes_its_tables.contains(&kind) && large.is_none() {
            self.table()?;
        }
        match kind {
            "join" | "anti" => self.compared(kind, Self::period),
            "together" => self.compared("join", Self::period_of_all),
            "agg" => self.aggregate(),
            "payroll-join" => self.payroll("join,contract,pay,on,person,person"),
            "payroll-anti" => self.payroll("anti,pay,contract,on,person,person"),
            "apart" => self.apart(),
            "random" => self.out.write_all(&random::script(&mut self.numbers)),
            "damaged" => {
                let script = random::script(&mut self.numbers);
                self.out
                    .write_all(&random::damaged(&mut self.numbers, script))
            }
            "rows" => self.load(rows).and_then(|()| self.queries("rows,t")),
            "at" => self.load(rows).and_then(|()| self.days()),
            "dip" => self.load(rows).and_then(|()| self.queries("dip,t")),
            "log" => self.singles().and_then(|()| self.queries("log")),
            "singles" => self.singles(),
            "turns" => self.turns(),
            "named" => self.load(rows).and_then(|()| self.named()),
            "renamed" => self.load(rows).and_then(|()| self.renamed()),
            "portions" => self.load(rows).and_then(|()| self.portions()),
            "past" => {
                self.load(rows / 2)?;
                self.change_all()?;
                self.queries("rows,t,asof,2")
            }
            "between" => {
                self.load(rows / 2)?;
                self.change_all()?;
                self.queries("between,t,2,3")
            }
            _ => match large {
                Some(shape) => self
                    .out
                    .write_all(&large::script(&mut self.numbers, shape, rows)),
                None => Err(io::Error::other("no such kind of script")),
            },
        }?;
        self.out.flush()
    }
}

/// A text of its own for each number; every fourth needs quotes.
fn name_of(number: u64) -> String {
    let surname = SURNAMES[(number % 8) as usize];
    if number.is_multiple_of(4) {
        format!("\"{surname}, {number}\"")
    } else {
        format!("{surname} {number}")
    }
}

fn read_options(words: &[String]) -> Option<Options> {
    let mut options = Options {
        rows: 10_000,
        overlap: 10,
        columns: 2,
        key: 0,
        groups: 0,
        updates: 0,
        queries: 0,
        seed: 1,
    };
    for pair in words.chunks(2) {
        let [word, number] = pair else { return None };
        let option = match word.as_str() {
            "--rows" => &mut options.rows,
            "--overlap" => &mut options.overlap,
            "--columns" => &mut options.columns,
            "--key" => &mut options.key,
            "--groups" => &mut options.groups,
            "--updates" => &mut options.updates,
            "--queries" => &mut options.queries,
            "--seed" => &mut options.seed,
            _ => return None,
        };
        *option = number.parse().ok()?;
    }
    let is_table = options.columns <= 16 && options.key <= options.columns;
    let is_made = options.rows > 0 && options.overlap > 0 && is_table;
    is_made.then_some(options)
}

fn main() -> Result<(), String> {
    let words: Vec<String> = std::env::args().skip(1).collect();
    let usage = "usage: generate KIND [--rows N] [--overlap N] [--columns N] [--key N] [--groups N] [--updates N] [--queries N] [--seed N]";
    let (kind, rest) = words.split_first().ok_or(usage)?;
    let options = read_options(rest).ok_or(usage)?;
    let mut script = Script {
        out: BufWriter::new(io::stdout().lock()),
        numbers: Numbers(options.seed),
        options,
    };
    script.write(kind).map_err(|error| error.to_string())
}
