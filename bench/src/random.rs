//! Random scripts: a few tables, and changes and queries of them, some of which are refused. Rows are of few values and of a
//! few weeks, so that many are equal, touch and overlap.

use crate::numbers::Numbers;
use crate::point::Point;

const TABLES: [&str; 3] = ["a", "b", "c"];
const COLUMNS: [&str; 4] = ["k", "n", "s", "t"];
const TEXTS: [&str; 8] = [
    "",
    "ada",
    "Ada",
    "\"Hopper, Grace\"",
    "\"so \"\"so\"\"\"",
    "\u{e9}\u{df}",
    " ada",
    "\"two\nlines\"",
];
const WRONG: [&str; 12] = [
    "",
    "asof",
    "by",
    "key",
    "on",
    "Table",
    "9",
    "-0",
    "01",
    "2024-02-30",
    "2024-01-01T24:00:00",
    "nosuch",
];
/// 2024-01-01, in days from the first.
const START: u32 = 738_885;

/// A script of some commands.
pub fn script(numbers: &mut Numbers) -> Vec<u8> {
    let mut writer = Writer {
        out: String::new(),
        numbers,
    };
    for table in TABLES {
        writer.table(table);
        writer.load(table);
    }
    for _ in 0..8 + writer.numbers.below(24) {
        writer.command();
    }
    writer.out.into_bytes()
}

/// The script with a few bytes changed, records cut or left out, or its end missing.
pub fn damaged(numbers: &mut Numbers, mut script: Vec<u8>) -> Vec<u8> {
    for _ in 0..1 + numbers.below(4) {
        let place = numbers.below(script.len() as u64 + 1) as usize;
        match numbers.below(5) {
            0 => script.truncate(place.max(script.len() / 2)),
            1 => script.insert(place, numbers.draw() as u8),
            2 => script.insert(
                place,
                *numbers.one_of(&[&b'"', &b',', &b'\n', &b'\r', &0xFF]),
            ),
            3 => {
                let end = script.len().min(place + 1 + numbers.below(12) as usize);
                script.drain(place.min(end)..end);
            }
            _ => drop_line(&mut script, place),
        }
    }
    script
}

/// Leaves out the line behind that place: an `end`, often, or a row.
fn drop_line(script: &mut Vec<u8>, place: usize) {
    let ends = |from: usize| {
        script[from..]
            .iter()
            .position(|byte| *byte == b'\n')
            .map(|at| from + at + 1)
    };
    if let Some(from) = ends(place)
        && let Some(to) = ends(from)
    {
        script.drain(from..to);
    }
}

struct Writer<'a> {
    out: String,
    numbers: &'a mut Numbers,
}

impl Writer<'_> {
    fn add(&mut self, field: &str) {
        self.out.push_str(field);
    }

    /// Behind a comma this field, or rarely one that is wrong there.
    fn field(&mut self, field: &str) {
        let wrong = self.numbers.one_in(600);
        let field = if wrong {
            self.numbers.one_of(&WRONG)
        } else {
            field
        };
        self.add(",");
        self.add(field);
    }

    fn end(&mut self) {
        self.add("\n");
    }

    fn name(&mut self) {
        let table = self.numbers.one_of(&TABLES);
        self.field(table);
    }

    fn load_one(&mut self) {
        let table = self.numbers.one_of(&TABLES);
        self.load(table);
    }

    fn column(&mut self) {
        let column = self.numbers.one_of(&COLUMNS);
        self.field(column);
    }

    /// Columns `k` and `n` are numbers, `s` and `t` texts; some tables have a key.
    fn table(&mut self, name: &str) {
        self.add("table");
        self.field(name);
        for column in COLUMNS {
            self.field(column);
            self.field(if column < "o" { "int" } else { "text" });
        }
        if self.numbers.one_in(3) {
            self.field("key");
            self.column();
            self.column();
        }
        self.end();
    }

    fn point(&mut self) {
        let day = START + self.numbers.below(28) as u32;
        self.point_at(day);
    }

    fn point_at(&mut self, day: u32) {
        let mut point = Point::FIRST.after_days(day);
        if self.numbers.one_in(8) {
            point.0 += self.numbers.below(86_400) as i64;
        }
        let mut text = Vec::new();
        point.write(&mut text);
        self.field(&String::from_utf8_lossy(&text));
    }

    /// Two points, of which the later one is rarely first.
    fn period(&mut self) {
        let from = START + self.numbers.below(24) as u32;
        let long = if self.numbers.one_in(4) { 300 } else { 8 };
        let to = if self.numbers.one_in(60) {
            from
        } else {
            from + 1 + self.numbers.below(long) as u32
        };
        self.point_at(from);
        self.point_at(to);
    }

    fn number(&mut self) {
        let number = self.numbers.below(5) as i64 - 1;
        self.field(&number.to_string());
    }

    fn text(&mut self) {
        let text = self.numbers.one_of(&TEXTS);
        self.field(text);
    }

    fn rows(&mut self, most: u64) {
        for _ in 0..self.numbers.below(most) {
            self.add("row");
            self.period();
            self.number();
            self.number();
            self.text();
            self.text();
            self.end();
        }
    }

    fn load(&mut self, table: &str) {
        self.add("load");
        self.field(table);
        self.end();
        let most = if self.numbers.one_in(6) { 400 } else { 24 };
        self.rows(most);
        self.add("end\n");
    }

    fn setting(&mut self) {
        let column = self.numbers.one_of(&COLUMNS);
        self.field(column);
        if column < "o" {
            self.number()
        } else {
            self.text()
        }
    }

    fn conditions(&mut self) {
        if self.numbers.one_in(3) {
            return;
        }
        self.field("where");
        for _ in 0..1 + self.numbers.below(2) {
            self.setting();
        }
    }

    fn update(&mut self) {
        self.add("update");
        self.name();
        self.period();
        self.field("set");
        for _ in 0..1 + self.numbers.below(2) {
            self.setting();
        }
        self.conditions();
        self.end();
    }

    fn delete(&mut self) {
        self.add("delete");
        self.name();
        self.period();
        self.conditions();
        self.end();
    }

    fn suffix(&mut self) {
        if self.numbers.one_in(4) {
            self.field("asof");
            let commit = self.numbers.below(12);
            self.field(&commit.to_string());
        }
        self.end();
    }

    fn commits(&mut self, word: &str) {
        self.add(word);
        self.name();
        let first = self.numbers.below(10);
        let last = first + self.numbers.below(8);
        self.field(&first.to_string());
        self.field(&last.to_string());
        self.end();
    }

    fn compared(&mut self, word: &str) {
        self.add(word);
        self.name();
        self.name();
        if !self.numbers.one_in(6) {
            self.field("on");
            for _ in 0..1 + self.numbers.below(2) {
                let column = self.numbers.one_of(&COLUMNS);
                self.field(column);
                let other = self.numbers.one_of(&["k", "n"]);
                self.field(if column < "o" { other } else { column });
            }
        }
        self.suffix();
    }

    fn aggregate(&mut self) {
        self.add("agg");
        self.name();
        let function = self.numbers.one_of(&["count", "sum", "min", "max"]);
        self.field(function);
        if function != "count" {
            let column = self.numbers.one_of(&["k", "n"]);
            self.field(column);
        }
        if self.numbers.one_in(2) {
            self.field("by");
            self.column();
        }
        self.suffix();
    }

    /// A claim, which is hardly ever a division.
    fn check(&mut self) {
        self.add("check");
        self.name();
        let parts = self.numbers.below(3);
        self.field(&parts.to_string());
        if parts == 0 {
            self.field("-")
        } else {
            self.point()
        }
        self.suffix();
        for _ in 0..parts {
            self.add("part");
            for _ in 0..self.numbers.below(4) {
                let id = 1 + self.numbers.below(6);
                self.field(&id.to_string());
            }
            self.end();
        }
        self.add("end\n");
    }

    fn query(&mut self) {
        match self.numbers.below(9) {
            0 => {
                self.add("rows");
                self.name();
                self.suffix();
            }
            1 => {
                self.add("at");
                self.name();
                self.point();
                self.suffix();
            }
            2 => {
                self.add("dip");
                self.name();
                self.suffix();
            }
            3 => self.compared("join"),
            4 => self.compared("anti"),
            5 => self.aggregate(),
            6 => self.commits("between"),
            7 => self.commits("fromto"),
            _ => self.check(),
        }
    }

    /// A block of queries, often with a load.
    fn together(&mut self) {
        self.add("together\n");
        for _ in 0..self.numbers.below(4) {
            self.query();
        }
        if !self.numbers.one_in(3) {
            self.load_one();
        }
        for _ in 0..self.numbers.below(3) {
            self.query();
        }
        self.add("end\n");
    }

    fn command(&mut self) {
        match self.numbers.below(16) {
            0..5 => self.load_one(),
            5..7 => self.update(),
            7 => self.delete(),
            8 => self.together(),
            9 => self.add("log\n"),
            _ => self.query(),
        }
    }
}
