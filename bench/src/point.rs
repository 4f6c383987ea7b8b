//! Points in time and periods of them.

const SECONDS_PER_DAY: i64 = 86_400;

/// A second of a day of the Gregorian calendar, as the number of seconds from 1970-01-01T00:00:00.
#[derive(Clone, Copy, Debug, PartialEq, Eq, PartialOrd, Ord)]
pub struct Point(pub i64);

impl Point {
    /// 0001-01-01.
    pub const FIRST: Point = Point(-62_135_596_800);
    /// 9999-12-31T23:59:59.
    pub const LAST: Point = Point(253_402_300_799);

    /// The point so many days later.
    pub fn after_days(self, days: u32) -> Point {
        Point(self.0 + i64::from(days) * SECONDS_PER_DAY)
    }

    /// The point that `YYYY-MM-DD` or `YYYY-MM-DDThh:mm:ss` names.
    pub fn parse(text: &[u8]) -> Option<Point> {
        let (date, time) = text.split_first_chunk()?;
        let (day, second) = (day(date)?, second(time)?);
        Some(Point(i64::from(day) * SECONDS_PER_DAY + i64::from(second)))
    }

    /// Writes `YYYY-MM-DD` at midnight, else `YYYY-MM-DDThh:mm:ss`.
    pub fn write(self, out: &mut Vec<u8>) {
        out.extend_from_slice(&date_text(self.0.div_euclid(SECONDS_PER_DAY) as i32));
        let second = self.0.rem_euclid(SECONDS_PER_DAY) as i32;
        if second != 0 {
            out.extend_from_slice(&time_text(second));
        }
    }
}

/// The day that `YYYY-MM-DD` names, as the number of days from 1970-01-01.
fn day(text: &[u8; 10]) -> Option<i32> {
    if text[4] != b'-' || text[7] != b'-' {
        return None;
    }
    let year = digits(&text[0..4])?;
    let month = digits(&text[5..7])?;
    let day = digits(&text[8..10])?;
    let is_date =
        year >= 1 && (1..=12).contains(&month) && (1..=days_in(year, month)).contains(&day);
    is_date.then(|| day_number(year, month, day))
}

/// The second of the day that `Thh:mm:ss` names: the first where there is no text.
fn second(text: &[u8]) -> Option<i32> {
    if text.is_empty() {
        return Some(0);
    }
    let text: &[u8; 9] = text.try_into().ok()?;
    if text[0] != b'T' || text[3] != b':' || text[6] != b':' {
        return None;
    }
    let hour = digits(&text[1..3])?;
    let minute = digits(&text[4..6])?;
    let second = digits(&text[7..9])?;
    let is_time = hour < 24 && minute < 60 && second < 60;
    is_time.then_some((hour * 60 + minute) * 60 + second)
}

fn date_text(number: i32) -> [u8; 10] {
    let (year, month, day) = date_of(number);
    [
        digit(year / 1000),
        digit(year / 100),
        digit(year / 10),
        digit(year),
        b'-',
        digit(month / 10),
        digit(month),
        b'-',
        digit(day / 10),
        digit(day),
    ]
}

fn time_text(second: i32) -> [u8; 9] {
    let (hour, minute, second) = (second / 3600, second / 60 % 60, second % 60);
    [
        b'T',
        digit(hour / 10),
        digit(hour),
        b':',
        digit(minute / 10),
        digit(minute),
        b':',
        digit(second / 10),
        digit(second),
    ]
}

/// The last digit of a number.
fn digit(number: i32) -> u8 {
    b'0' + (number % 10) as u8
}

fn digits(text: &[u8]) -> Option<i32> {
    text.iter().try_fold(0, |number, byte| {
        byte.is_ascii_digit()
            .then(|| number * 10 + i32::from(byte - b'0'))
    })
}

fn days_in(year: i32, month: i32) -> i32 {
    match month {
        2 if year % 4 == 0 && (year % 100 != 0 || year % 400 == 0) => 29,
        2 => 28,
        4 | 6 | 9 | 11 => 30,
        _ => 31,
    }
}

/// Days of the 400 years after which the calendar repeats.
const CYCLE: i32 = 146_097;
/// From 0000-03-01 to 1970-01-01.
const EPOCH: i32 = 719_468;

/// Years are counted from March here, so that a leap day is the last of its year.
fn day_number(year: i32, month: i32, day: i32) -> i32 {
    let year = year - i32::from(month <= 2);
    let (cycle, year) = (year.div_euclid(400), year.rem_euclid(400));
    let day_of_year = (153 * ((month + 9) % 12) + 2) / 5 + day - 1;
    cycle * CYCLE + year * 365 + year / 4 - year / 100 + day_of_year - EPOCH
}

fn date_of(number: i32) -> (i32, i32, i32) {
    let number = number + EPOCH;
    let (cycle, day) = (number.div_euclid(CYCLE), number.rem_euclid(CYCLE));
    let year = (day - day / 1460 + day / 36_524 - day / 146_096) / 365;
    let day_of_year = day - (365 * year + year / 4 - year / 100);
    let month = (5 * day_of_year + 2) / 153;
    let day = day_of_year - (153 * month + 2) / 5 + 1;
    let month = if month < 10 { month + 3 } else { month - 9 };
    (cycle * 400 + year + i32::from(month <= 2), month, day)
}

/// The points from one on and before another, of which there is always one.
#[derive(Clone, Copy, Debug, PartialEq, Eq)]
pub struct Period {
    pub from: Point,
    pub to: Point,
}

impl Period {
    pub fn new(from: Point, to: Point) -> Option<Period> {
        (from < to).then_some(Period { from, to })
    }

    pub fn holds(self, point: Point) -> bool {
        self.from <= point && point < self.to
    }

    pub fn overlaps(self, other: Period) -> bool {
        self.from < other.to && other.from < self.to
    }

    /// The points of both.
    pub fn meet(self, other: Period) -> Option<Period> {
        Period::new(self.from.max(other.from), self.to.min(other.to))
    }

    /// The points before the other starts.
    pub fn before(self, other: Period) -> Option<Period> {
        Period::new(self.from, self.to.min(other.from))
    }

    /// The points from the other's end on.
    pub fn after(self, other: Period) -> Option<Period> {
        Period::new(self.from.max(other.to), self.to)
    }
}

#[cfg(test)]
mod tests {
    use super::*;

    fn text(point: Point) -> String {
        let mut text = Vec::new();
        point.write(&mut text);
        String::from_utf8(text).unwrap()
    }

    #[test]
    fn each_day_is_that_of_its_text() {
        let mut point = Point::FIRST;
        while point <= Point::LAST {
            assert_eq!(Point::parse(text(point).as_bytes()), Some(point));
            point = point.after_days(1);
        }
    }

    #[test]
    fn each_second_of_a_day_is_that_of_its_text() {
        for second in -SECONDS_PER_DAY..SECONDS_PER_DAY {
            let point = Point(second);
            assert_eq!(Point::parse(text(point).as_bytes()), Some(point));
        }
    }

    #[test]
    fn known_points() {
        for (name, number) in [
            ("1970-01-01", 0),
            ("1969-12-31T23:59:59", -1),
            ("2024-02-29", 1_709_164_800),
            ("2024-01-01T12:34:56", 1_704_112_496),
            ("0001-01-01", Point::FIRST.0),
            ("9999-12-31T23:59:59", Point::LAST.0),
        ] {
            assert_eq!(Point::parse(name.as_bytes()), Some(Point(number)));
            assert_eq!(text(Point(number)), name);
        }
        assert_eq!(Point::parse(b"1970-01-01T00:00:00"), Some(Point(0)));
    }

    #[test]
    fn texts_of_no_point() {
        for text in [
            "2023-02-29",
            "0000-12-31",
            "2024-13-01",
            "2024-1-01",
            "2024-04-31",
            "+024-04-01",
            "2024-01-01T24:00:00",
            "2024-01-01T23:60:00",
            "2024-01-01T23:59:60",
            "2024-01-01T12:00",
            "2024-01-01 12:00:00",
            "2024-01-01t12:00:00",
            "2024-01-01T12:00:00Z",
            "2024-01-01T+1:00:00",
            "2024-01-01T",
            "2023-02-29T00:00:00",
        ] {
            assert_eq!(Point::parse(text.as_bytes()), None, "{text}");
        }
    }
}
