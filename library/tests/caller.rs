//! Reads left rows, right rows and a claimed division of the left rows, and prints the answer of each function of the
//! library in the form that tools/check-library compares.
use std::io::Read;

extern "C" {
    fn ruzgalt_dip(
        from: *const i64, from_len: usize, to: *const i64, to_len: usize, part: *mut u32, part_len: usize,
        parts: *mut u32, instant: *mut i64,
    ) -> i32;
    fn ruzgalt_join(
        left_class: *const u64, left_class_len: usize, left_from: *const i64, left_from_len: usize,
        left_to: *const i64, left_to_len: usize, right_class: *const u64, right_class_len: usize,
        right_from: *const i64, right_from_len: usize, right_to: *const i64, right_to_len: usize,
        left: *mut u32, left_len: usize, right: *mut u32, right_len: usize, from: *mut i64, from_len: usize,
        to: *mut i64, to_len: usize, count: *mut u64,
    ) -> i32;
    fn ruzgalt_anti(
        left_class: *const u64, left_class_len: usize, left_from: *const i64, left_from_len: usize,
        left_to: *const i64, left_to_len: usize, right_class: *const u64, right_class_len: usize,
        right_from: *const i64, right_from_len: usize, right_to: *const i64, right_to_len: usize,
        left: *mut u32, left_len: usize, from: *mut i64, from_len: usize, to: *mut i64, to_len: usize, count: *mut u64,
    ) -> i32;
    fn ruzgalt_agg(
        group: *const u64, group_len: usize, from: *const i64, from_len: usize, to: *const i64, to_len: usize,
        amount: *const i64, amount_len: usize, function: u32, of_group: *mut u64, of_group_len: usize,
        starts: *mut i64, starts_len: usize, ends: *mut i64, ends_len: usize, low: *mut u64, low_len: usize,
        high: *mut i64, high_len: usize, count: *mut u64,
    ) -> i32;
    fn ruzgalt_check(
        from: *const i64, from_len: usize, to: *const i64, to_len: usize, part: *const u32, part_len: usize,
        parts: u32, instant: i64, verdict: *mut u32, first: *mut u64, second: *mut u64,
    ) -> i32;
}

const NO_ROOM: i32 = 5;

#[derive(Default)]
struct Rows {
    class: Vec<u64>,
    from: Vec<i64>,
    to: Vec<i64>,
    amount: Vec<i64>,
}

fn rows_of(numbers: &mut impl Iterator<Item = i64>) -> Rows {
    let mut rows = Rows::default();
    for _ in 0..numbers.next().unwrap() {
        rows.class.push(numbers.next().unwrap() as u64);
        rows.from.push(numbers.next().unwrap());
        rows.to.push(numbers.next().unwrap());
        rows.amount.push(numbers.next().unwrap());
    }
    rows
}

fn dip(rows: &Rows) {
    let n = rows.from.len();
    let (mut part, mut parts, mut instant) = (vec![0u32; n], 0, 0);
    let code = unsafe {
        ruzgalt_dip(rows.from.as_ptr(), n, rows.to.as_ptr(), n, part.as_mut_ptr(), n, &mut parts, &mut instant)
    };
    print!("dip {code} {parts} {instant}");
    part.iter().for_each(|number| print!(" {number}"));
    println!();
}

fn join(a: &Rows, b: &Rows) {
    let (n, m, mut most, mut count) = (a.from.len(), b.from.len(), 4, 0);
    loop {
        let (mut left, mut right) = (vec![0u32; most], vec![0u32; most]);
        let (mut from, mut to) = (vec![0i64; most], vec![0i64; most]);
        let code = unsafe {
            ruzgalt_join(
                a.class.as_ptr(), n, a.from.as_ptr(), n, a.to.as_ptr(), n,
                b.class.as_ptr(), m, b.from.as_ptr(), m, b.to.as_ptr(), m,
                left.as_mut_ptr(), most, right.as_mut_ptr(), most, from.as_mut_ptr(), most, to.as_mut_ptr(), most,
                &mut count,
            )
        };
        if code == NO_ROOM && count as usize > most {
            most = count as usize;
            continue;
        }
        println!("join {code} {count}");
        for k in 0..count as usize {
            println!("{} {} {} {}", left[k], right[k], from[k], to[k]);
        }
        return;
    }
}

fn anti(a: &Rows, b: &Rows) {
    let (n, m, mut most, mut count) = (a.from.len(), b.from.len(), 4, 0);
    loop {
        let (mut left, mut from, mut to) = (vec![0u32; most], vec![0i64; most], vec![0i64; most]);
        let code = unsafe {
            ruzgalt_anti(
                a.class.as_ptr(), n, a.from.as_ptr(), n, a.to.as_ptr(), n,
                b.class.as_ptr(), m, b.from.as_ptr(), m, b.to.as_ptr(), m,
                left.as_mut_ptr(), most, from.as_mut_ptr(), most, to.as_mut_ptr(), most, &mut count,
            )
        };
        if code == NO_ROOM && count as usize > most {
            most = count as usize;
            continue;
        }
        println!("anti {code} {count}");
        for k in 0..count as usize {
            println!("{} {} {}", left[k], from[k], to[k]);
        }
        return;
    }
}

fn agg(rows: &Rows, function: u32) {
    let (n, most, mut count) = (rows.from.len(), 2 * rows.from.len(), 0);
    let (mut group, mut low, mut high) = (vec![0u64; most], vec![0u64; most], vec![0i64; most]);
    let (mut from, mut to) = (vec![0i64; most], vec![0i64; most]);
    let code = unsafe {
        ruzgalt_agg(
            rows.class.as_ptr(), n, rows.from.as_ptr(), n, rows.to.as_ptr(), n, rows.amount.as_ptr(), n, function,
            group.as_mut_ptr(), most, from.as_mut_ptr(), most, to.as_mut_ptr(), most,
            low.as_mut_ptr(), most, high.as_mut_ptr(), most, &mut count,
        )
    };
    println!("agg {code} {count}");
    for k in 0..count as usize {
        println!("{} {} {} {} {}", group[k], from[k], to[k], low[k], high[k]);
    }
}

fn check(rows: &Rows, numbers: &mut impl Iterator<Item = i64>) {
    let n = rows.from.len();
    let (parts, instant) = (numbers.next().unwrap() as u32, numbers.next().unwrap());
    let part: Vec<u32> = numbers.take(n).map(|number| number as u32).collect();
    let (mut verdict, mut first, mut second) = (0, 0, 0);
    let code = unsafe {
        ruzgalt_check(
            rows.from.as_ptr(), n, rows.to.as_ptr(), n, part.as_ptr(), n, parts, instant, &mut verdict, &mut first,
            &mut second,
        )
    };
    println!("check {code} {verdict} {first} {second}");
}

fn main() {
    let mut text = String::new();
    std::io::stdin().read_to_string(&mut text).unwrap();
    let mut numbers = text.split_ascii_whitespace().map(|word| word.parse::<i64>().unwrap());
    let (left, right) = (rows_of(&mut numbers), rows_of(&mut numbers));
    dip(&left);
    join(&left, &right);
    anti(&left, &right);
    (0..4).for_each(|function| agg(&left, function));
    check(&left, &mut numbers);
}
