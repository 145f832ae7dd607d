// Field families: how a field is read, and how a number is spelled, as docs/FIELDS.md says.

pub enum Family {
    Ascii,
    Binary,
    Pair(Box<Family>, Box<Family>),
}

#[derive(Clone, Copy, PartialEq)]
pub enum Sort {
    Numeric,
    Kept,
    Unknown,
}

/// What reading gives: a length and a number, or the cause.
pub type Reading = Result<(usize, i64), i64>;

const SHORT: i64 = 1;
const FORM: i64 = 2;
const RANGE: i64 = 3;
const SECOND_SPELLING: i64 = 4;

impl Family {
    pub fn of_words(words: &str) -> Option<Family> {
        let (family, rest) = Family::first_of(words)?;
        if rest.is_empty() { Some(family) } else { None }
    }

    fn first_of(words: &str) -> Option<(Family, &str)> {
        if let Some(rest) = words.strip_prefix("ascii") {
            return Some((Family::Ascii, rest));
        }
        if let Some(rest) = words.strip_prefix("binary") {
            return Some((Family::Binary, rest));
        }
        let (first, rest) = Family::first_of(words.strip_prefix("pair:")?)?;
        let (second, rest) = Family::first_of(rest.strip_prefix(':')?)?;
        Some((Family::Pair(Box::new(first), Box::new(second)), rest))
    }

    pub fn sort(&self, kind: u8, p: u8) -> Sort {
        match self {
            Family::Ascii => match (kind, p) {
                (1, 0) => Sort::Numeric,
                (2, 0..=4) => Sort::Numeric,
                (4, _) => Sort::Kept,
                (6, 0) => Sort::Numeric,
                _ => Sort::Unknown,
            },
            Family::Binary => match (kind, p) {
                (1, 1..=4) => Sort::Numeric,
                (2, 1..=4) => Sort::Numeric,
                (3, 1..=255) => Sort::Kept,
                _ => Sort::Unknown,
            },
            Family::Pair(first, second) => {
                if kind < 32 { first.sort(kind, p) } else { second.sort(kind - 32, p) }
            }
        }
    }

    /// Reads a field of a known kind at the start of some bytes.
    pub fn read(&self, kind: u8, p: u8, bytes: &[u8]) -> Reading {
        match self {
            Family::Ascii => match kind {
                1 => whole(bytes),
                2 => amount(p as usize, bytes),
                4 => {
                    let length = bytes.iter().position(|byte| *byte == p).unwrap_or(bytes.len());
                    Ok((length, length as i64))
                }
                6 => date(bytes),
                _ => unreachable!("a kind that the family does not know"),
            },
            Family::Binary => {
                let length = p as usize;
                if bytes.len() < length {
                    return Err(SHORT);
                }
                match kind {
                    1 => Ok((length, unsigned(&bytes[..length]))),
                    2 => {
                        let number = unsigned(&bytes[..length]);
                        let negative = bytes[0] >= 0x80;
                        Ok((length, if negative { number - (1 << (8 * length)) } else { number }))
                    }
                    3 => Ok((length, length as i64)),
                    _ => unreachable!("a kind that the family does not know"),
                }
            }
            Family::Pair(first, second) => {
                if kind < 32 { first.read(kind, p, bytes) } else { second.read(kind - 32, p, bytes) }
            }
        }
    }

    /// The spelling of a number of a numeric kind; nothing for other kinds.
    pub fn spell(&self, kind: u8, p: u8, number: i64) -> Vec<u8> {
        match self {
            Family::Ascii => match kind {
                1 => number.to_string().into_bytes(),
                2 => {
                    let sign = if number < 0 { "-" } else { "" };
                    let size = number.unsigned_abs();
                    let one = 10u64.pow(p as u32);
                    if p == 0 {
                        format!("{sign}{size}").into_bytes()
                    } else {
                        format!("{sign}{}.{:02$}", size / one, size % one, p as usize).into_bytes()
                    }
                }
                6 => {
                    let (year, month, day) = (number / 10_000, number / 100 % 100, number % 100);
                    format!("{year:04}-{month:02}-{day:02}").into_bytes()
                }
                _ => Vec::new(),
            },
            Family::Binary => match kind {
                1 | 2 => number.to_be_bytes()[8 - p as usize..].to_vec(),
                _ => Vec::new(),
            },
            Family::Pair(first, second) => {
                if kind < 32 { first.spell(kind, p, number) } else { second.spell(kind - 32, p, number) }
            }
        }
    }
}

/// How long the longest run of digits is with which some bytes begin.
fn run(bytes: &[u8]) -> usize {
    bytes.iter().take_while(|byte| byte.is_ascii_digit()).count()
}

fn value(digits: &[u8]) -> i64 {
    digits.iter().fold(0, |number, digit| 10 * number + (digit - b'0') as i64)
}

fn unsigned(bytes: &[u8]) -> i64 {
    bytes.iter().fold(0, |number, byte| 256 * number + *byte as i64)
}

fn whole(bytes: &[u8]) -> Reading {
    if bytes.is_empty() {
        return Err(SHORT);
    }
    let length = run(bytes);
    if length == 0 {
        return Err(FORM);
    }
    if length > 12 {
        return Err(RANGE);
    }
    if length > 1 && bytes[0] == b'0' {
        return Err(SECOND_SPELLING);
    }
    Ok((length, value(&bytes[..length])))
}

fn amount(p: usize, bytes: &[u8]) -> Reading {
    if bytes.is_empty() {
        return Err(SHORT);
    }
    let negative = bytes[0] == b'-';
    let unsigned = if negative { &bytes[1..] } else { bytes };
    let first = run(unsigned);
    if first == 0 {
        return Err(FORM);
    }
    let mut length = negative as usize + first;
    let mut digits = unsigned[..first].to_vec();
    if p > 0 {
        if unsigned.get(first) != Some(&b'.') {
            return Err(FORM);
        }
        let second = run(&unsigned[first + 1..]);
        if second != p {
            return Err(FORM);
        }
        length += 1 + p;
        digits.extend_from_slice(&unsigned[first + 1..first + 1 + p]);
    }
    if digits.len() > 12 {
        return Err(RANGE);
    }
    let size = value(&digits);
    if first > 1 && digits[0] == b'0' || negative && size == 0 {
        return Err(SECOND_SPELLING);
    }
    Ok((length, if negative { -size } else { size }))
}

fn date(bytes: &[u8]) -> Reading {
    if bytes.len() < 10 {
        return Err(SHORT);
    }
    let form = b"dddd-dd-dd";
    for place in 0..10 {
        let fits = if form[place] == b'-' { bytes[place] == b'-' } else { bytes[place].is_ascii_digit() };
        if !fits {
            return Err(FORM);
        }
    }
    let (year, month, day) = (value(&bytes[..4]), value(&bytes[5..7]), value(&bytes[8..10]));
    if !(1900..=2199).contains(&year) || !(1..=12).contains(&month) {
        return Err(RANGE);
    }
    let days = match month {
        2 => if year % 4 == 0 { 29 } else { 28 },
        4 | 6 | 9 | 11 => 30,
        _ => 31,
    };
    if !(1..=days).contains(&day) {
        return Err(RANGE);
    }
    Ok((10, 10_000 * year + 100 * month + day))
}
