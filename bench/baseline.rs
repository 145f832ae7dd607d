// A reader written by hand for the invoice layout alone (whole number, comma, date, comma, amount with two decimals), to measure beside the library.
// It has the library's rules of fields, and keeps what it reads in one struct; it makes no lines, tells no causes, and gives a faulty row up at its first fault.
// Usage: baseline WORK TIMES FILE, as bench/run calls it; WORK is cut, read, print or match.
use std::hint::black_box;

#[derive(Clone, Copy, PartialEq, Eq)]
struct Invoice {
    number: i64,
    date: i64,
    amount: i64,
}

// The run of digits at the beginning, as a number of at most 12 digits with one spelling, and what follows.
fn whole(row: &[u8]) -> Option<(i64, &[u8])> {
    let length = row.iter().take_while(|b| b.is_ascii_digit()).count();
    if length == 0 || length > 12 || (length > 1 && row[0] == b'0') {
        return None;
    }
    let (digits, rest) = row.split_at(length);
    Some((value(digits), rest))
}

fn value(digits: &[u8]) -> i64 {
    digits.iter().fold(0, |n, b| n * 10 + i64::from(b - b'0'))
}

fn comma(row: &[u8]) -> Option<&[u8]> {
    row.strip_prefix(b",")
}

fn days(year: i64, month: i64) -> i64 {
    match month {
        4 | 6 | 9 | 11 => 30,
        2 if year % 4 == 0 => 29,
        2 => 28,
        _ => 31,
    }
}

fn date(row: &[u8]) -> Option<(i64, &[u8])> {
    let (text, rest) = row.split_at_checked(10)?;
    let digits = |part: &[u8]| part.iter().all(u8::is_ascii_digit).then(|| value(part));
    if text[4] != b'-' || text[7] != b'-' {
        return None;
    }
    let (year, month, day) = (digits(&text[..4])?, digits(&text[5..7])?, digits(&text[8..])?);
    let good = (1900..=2199).contains(&year) && (1..=12).contains(&month) && (1..=days(year, month)).contains(&day);
    good.then_some((10_000 * year + 100 * month + day, rest))
}

fn amount(row: &[u8]) -> Option<(i64, &[u8])> {
    let (minus, row) = match row.strip_prefix(b"-") {
        Some(rest) => (true, rest),
        None => (false, row),
    };
    let length = row.iter().take_while(|b| b.is_ascii_digit()).count();
    if length == 0 || (length > 1 && row[0] == b'0') || row.get(length) != Some(&b'.') {
        return None;
    }
    let cents = row[length + 1..].iter().take_while(|b| b.is_ascii_digit()).count();
    if cents != 2 || length + cents > 12 {
        return None;
    }
    let number = value(&row[..length]) * 100 + value(&row[length + 1..length + 3]);
    if minus && number == 0 {
        return None;
    }
    Some((if minus { -number } else { number }, &row[length + 3..]))
}

fn invoice(row: &[u8]) -> Option<Invoice> {
    let (number, rest) = whole(row)?;
    let (date, rest) = date(comma(rest)?)?;
    let (amount, rest) = amount(comma(rest)?)?;
    rest.is_empty().then_some(Invoice { number, date, amount })
}

// Writes digits at a place of a buffer, with leading zeros up to a width, and answers the place behind them.
fn spell(mut n: u64, width: usize, out: &mut [u8], at: usize) -> usize {
    let mut text = [b'0'; 20];
    let mut first = 20;
    while n > 0 || 20 - first < width {
        first -= 1;
        text[first] = b'0' + (n % 10) as u8;
        n /= 10;
    }
    let end = at + 20 - first;
    out[at..end].copy_from_slice(&text[first..]);
    end
}

fn put(byte: u8, out: &mut [u8], at: usize) -> usize {
    out[at] = byte;
    at + 1
}

fn print(i: &Invoice, out: &mut [u8]) -> usize {
    let at = spell(i.number as u64, 1, out, 0);
    let at = put(b',', out, at);
    let at = spell((i.date / 10_000) as u64, 4, out, at);
    let at = put(b'-', out, at);
    let at = spell((i.date / 100 % 100) as u64, 2, out, at);
    let at = put(b'-', out, at);
    let at = spell((i.date % 100) as u64, 2, out, at);
    let at = put(b',', out, at);
    let at = if i.amount < 0 { put(b'-', out, at) } else { at };
    let at = spell(i.amount.unsigned_abs() / 100, 1, out, at);
    let at = put(b'.', out, at);
    let at = spell(i.amount.unsigned_abs() % 100, 2, out, at);
    put(b'\n', out, at)
}

fn rows(file: &[u8]) -> impl Iterator<Item = &[u8]> {
    file.split_inclusive(|b| *b == b'\n').map(|row| row.strip_suffix(b"\n").unwrap_or(row))
}

fn main() {
    let words: Vec<String> = std::env::args().collect();
    let [_, work, times, name] = words.as_slice() else {
        panic!("baseline WORK TIMES FILE");
    };
    let file = std::fs::read(name).expect("the file");
    // a second copy, to match with
    let again = file.clone();
    let mut out = vec![0; 8192];
    let (mut count, mut faulty, mut printed) = (0, 0, 0);
    for _ in 0..times.parse::<usize>().expect("TIMES") {
        (count, faulty, printed) = (0, 0, 0);
        match work.as_str() {
            "cut" => rows(black_box(&file)).for_each(|row| {
                black_box(row);
                count += 1;
            }),
            "read" | "file" => rows(black_box(&file)).for_each(|row| {
                count += 1;
                faulty += usize::from(black_box(invoice(row)).is_none());
            }),
            "print" => rows(black_box(&file)).for_each(|row| {
                count += 1;
                match invoice(row) {
                    Some(i) => printed += print(&i, black_box(&mut out)),
                    None => faulty += 1,
                }
            }),
            "match" => rows(black_box(&file)).zip(rows(black_box(&again))).for_each(|(a, b)| {
                count += 1;
                let (i, j) = (invoice(a), invoice(b));
                let same = match (i, j) {
                    (Some(i), Some(j)) => i == j,
                    _ => a == b,
                };
                faulty += usize::from(i.is_none());
                assert!(same);
            }),
            _ => panic!("WORK"),
        }
    }
    println!("rows {count}, refused 0, faulty {faulty}, bytes printed {printed}");
}
