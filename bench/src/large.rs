//! Scripts of large tables, and of the queries that workers share out: joins, anti-joins and aggregates. They differ
//! by how many rows have one value, and by when the rows of one value hold: the more rows match, the shorter they are, so
//! that no answer for tables of 100,000 rows has more than 1,000,000 records.

use crate::numbers::Numbers;
use crate::point::Point;

/// How rows lie among the values of a column, and in time.
#[derive(Clone, Copy, Debug, PartialEq, Eq)]
pub enum Shape {
    /// Short rows, which are joined without columns.
    Bare,
    /// A few frequent values.
    Few,
    /// Five to twenty rows of each value.
    Many,
    /// One value of half of the rows, the least or a middle one, and rare ones.
    Half,
    /// No value twice in a table, and most in both.
    Each,
    /// All rows of a value hold on one day.
    AtOnce,
    /// Left rows of a value hold on one day, or on some, and right rows on others; one row of either side holds for long.
    Apart,
    /// One table, from 20,000 rows on with a few groups of more than 16,384 rows each, and small ones.
    Groups,
}

impl Shape {
    /// The shape of a kind of script, by its word.
    pub fn of_kind(kind: &str) -> Option<Shape> {
        Some(match kind {
            "large-bare" => Shape::Bare,
            "large-few" => Shape::Few,
            "large-many" => Shape::Many,
            "large-half" => Shape::Half,
            "large-each" => Shape::Each,
            "large-at-once" => Shape::AtOnce,
            "large-apart" => Shape::Apart,
            "large-groups" => Shape::Groups,
            _ => return None,
        })
    }
}

/// The two sides of a join: the left table, and the right one.
const TABLES: [&str; 2] = ["t", "u"];

/// The days of ten years.
const TEN_YEARS: u64 = 3_652;

/// Greater than the rows of a table, and a prime: numbers below these, times it, are all of them in another order.
const PRIME: u64 = 1_000_003;

/// Of the shape at once, the rows of the first value, those of the next hundred, and the first value behind these.
const CROWD: u64 = 400;
const BANDS: u64 = 3_000;
const AFTER_BANDS: u64 = 101;

/// Of the shape apart, the values, and the days of a slot, on the middle one of which all rows hold that lie in it.
const APART_VALUES: u64 = 4;
const SLOT: u64 = 1_001;

/// A row to be written: the number of its value, and its days.
struct Row {
    value: u64,
    from: u64,
    to: u64,
}

struct Writer<'a> {
    out: String,
    numbers: &'a mut Numbers,
    shape: Shape,
    rows: u64,
    /// How many values are frequent, or how many rows a value has, about; else 0 or 1, for two scripts of a shape.
    drawn: u64,
    /// Nearly all amounts are some of so many numbers.
    amounts: u64,
}

/// A script of tables of so many rows each, and of queries.
pub fn script(numbers: &mut Numbers, shape: Shape, rows: u64) -> Vec<u8> {
    let drawn = match shape {
        Shape::Few => 4 + numbers.below(8),
        Shape::Many => 5 + numbers.below(16),
        Shape::Groups => 1 + numbers.below((rows / 20_000).max(1)),
        _ => numbers.below(2),
    };
    let amounts = if numbers.one_in(2) { 4 } else { 100_000 };
    let mut writer = Writer {
        out: String::new(),
        numbers,
        shape,
        rows,
        drawn,
        amounts,
    };
    writer.table(0);
    if shape != Shape::Groups {
        writer.table(1);
        writer.compare();
    }
    writer.aggregate();
    writer.out.into_bytes()
}

impl Writer<'_> {
    fn line(&mut self, line: &str) {
        self.out.push_str(line);
        self.out.push('\n');
    }

    /// One row in forty is taken out again, so that the ids of those that are left have gaps.
    fn table(&mut self, side: u64) {
        let name = TABLES[side as usize];
        self.line(&format!("table,{name},k,int,s,text,n,int\nload,{name}"));
        for number in 0..self.rows {
            if self.numbers.one_in(40) {
                self.line("row,0001-01-01,9999-12-31,-1,,0");
            }
            let row = self.row(side, number);
            self.write(&row);
        }
        self.line("end");
        self.line(&format!(
            "delete,{name},0001-01-01,9999-12-31T23:59:59,where,k,-1"
        ));
    }

    /// The row, with its value as a number and as a text, and an amount; of one row in 1,000 it may be any number.
    fn write(&mut self, row: &Row) {
        let (from, to) = (self.point(row.from), self.point(row.to));
        let value = row.value;
        let quote = if value.is_multiple_of(3) { "\"" } else { "" };
        let amount = match self.numbers.below(1_000) {
            0 => self.numbers.draw() as i64,
            _ => self.numbers.below(self.amounts) as i64 - 1,
        };
        let number = 7 * value as i64 - 700;
        let text = format!("row,{from},{to},{number},{quote}v{value}{quote},{amount}");
        self.line(&text);
    }

    /// A second of the day, of one in eight, else its midnight.
    fn point(&mut self, day: u64) -> String {
        let mut point = Point::FIRST.after_days(day as u32);
        if self.numbers.one_in(8) {
            point.0 += self.numbers.below(86_400) as i64;
        }
        let mut text = Vec::new();
        point.write(&mut text);
        String::from_utf8_lossy(&text).into_owned()
    }

    fn row(&mut self, side: u64, number: u64) -> Row {
        let rows = self.rows;
        match self.shape {
            Shape::Bare => {
                let value = self.numbers.below(3);
                self.short(value, 2 * rows, 6)
            }
            Shape::Few => {
                let value = self.numbers.below(self.drawn);
                self.short(value, rows, 5 * self.drawn)
            }
            Shape::Many => {
                let value = self.numbers.below(rows.div_ceil(self.drawn));
                self.lasting(value, TEN_YEARS, 5 * TEN_YEARS / self.drawn)
            }
            Shape::Half if self.numbers.one_in(2) => self.short(self.drawn * (rows / 2), rows, 15),
            Shape::Half => {
                let value = self.numbers.below(rows);
                self.lasting(value, rows, rows)
            }
            Shape::Each => {
                let value = number * PRIME % rows + side * (rows / 10);
                self.lasting(value, rows, rows)
            }
            Shape::AtOnce => self.row_at_once(side, number * PRIME % rows),
            Shape::Apart => self.row_apart(side, number),
            Shape::Groups => self.row_of_group(),
        }
    }

    /// A row that starts in the range, and holds for so many days at most.
    fn lasting(&mut self, value: u64, range: u64, most: u64) -> Row {
        let from = self.numbers.below(range);
        let to = from + 1 + self.numbers.below(most);
        Row { value, from, to }
    }

    /// The same, but one row in 10,000 holds for a tenth of the range, and so beside many others.
    fn short(&mut self, value: u64, range: u64, most: u64) -> Row {
        let mut row = self.lasting(value, range, most);
        if self.numbers.one_in(10_000) {
            row.to += range / 10;
        }
        row
    }

    /// A row of those days, about, that holds on the middle one.
    fn around(&mut self, value: u64, from: u64, days: u64) -> Row {
        let half = days / 2;
        let to = from + half + 1 + self.numbers.below(half + 1);
        let from = from + self.numbers.below(half + 1);
        Row { value, from, to }
    }

    /// A value of a large crowd on either side, a hundred of smaller ones, one with a fifth of the rows of one side and four
    /// of the other's, and values of three rows on either side.
    fn row_at_once(&mut self, side: u64, place: u64) -> Row {
        let crowds = CROWD + BANDS;
        let value = if place < CROWD {
            0
        } else if place < crowds {
            1 + place % (AFTER_BANDS - 1)
        } else if place < crowds + 4 || side == self.drawn && place < crowds + self.rows / 5 {
            AFTER_BANDS
        } else {
            AFTER_BANDS + 1 + place / 3
        };
        self.around(value, value % 500, TEN_YEARS)
    }

    /// Three of four rows have one value. The first row of each value holds beside nearly all rows of the other side, and
    /// the others lie in slots: of the first value one of each side, of the next ones some of either side by turns.
    fn row_apart(&mut self, side: u64, number: u64) -> Row {
        let is_long = number < APART_VALUES;
        let value = if is_long {
            number
        } else if self.numbers.one_in(4) {
            1 + self.numbers.below(APART_VALUES - 1)
        } else {
            0
        };
        let slots = 1 + 2 * value;
        if is_long {
            let from = self.numbers.below(SLOT);
            let to = 2 * slots * SLOT - self.numbers.below(SLOT);
            return Row { value, from, to };
        }
        let slot = 2 * self.numbers.below(slots) + (side + value) % 2;
        self.around(value, slot * SLOT, SLOT)
    }

    /// Of one group in three rows are short, of one they hold for long, and of one from month to month.
    fn row_of_group(&mut self) -> Row {
        let rows = self.rows;
        if self.numbers.one_in(20) {
            let value = 10 + self.numbers.below(rows);
            return self.lasting(value, rows, rows);
        }
        let value = self.numbers.below(self.drawn);
        match (value + self.drawn) % 3 {
            0 => self.lasting(value, rows, 10),
            1 => self.lasting(value, rows, rows / 2),
            _ => {
                let months = self.lasting(value, 120, 12);
                let (from, to) = (30 * months.from, 30 * months.to);
                Row { value, from, to }
            }
        }
    }

    /// A join, and an anti-join of either table, by the value as a number, as a text, or both.
    fn compare(&mut self) {
        for tables in ["join,t,u", "anti,t,u", "anti,u,t"] {
            let columns = match (self.shape, self.numbers.below(3)) {
                (Shape::Bare, _) => "",
                (_, 0) => ",on,k,k",
                (_, 1) => ",on,s,s",
                _ => ",on,k,k,s,s",
            };
            self.line(&format!("{tables}{columns}"));
        }
    }

    /// All functions, without groups and by the value as a number or a text.
    fn aggregate(&mut self) {
        for (number, function) in ["count", "sum,n", "min,n", "max,n"].iter().enumerate() {
            let table = match self.shape {
                Shape::Groups => "t",
                _ => TABLES[number % 2],
            };
            let column = self.numbers.one_of(&["k", "s"]);
            let query = format!("agg,{table},{function}");
            self.line(&query);
            self.line(&format!("{query},by,{column}"));
        }
    }
}

#[cfg(test)]
mod tests {
    use super::*;

    #[test]
    fn no_command_is_refused() {
        for kind in [
            "bare", "few", "many", "half", "each", "at-once", "apart", "groups",
        ] {
            let shape = Shape::of_kind(&format!("large-{kind}")).unwrap();
            for seed in 0..8 {
                let script = script(&mut Numbers(seed), shape, 4_000);
                let refused = crate::script::run(script, std::io::sink()).unwrap();
                assert_eq!(refused, 0, "{kind}, {seed}");
            }
        }
    }
}
