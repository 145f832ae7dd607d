// Random layouts: trees of all shapes, their files under any lawful numbering, and rows that meet them more or less.

use crate::dice::Dice;
use crate::fields::Family;
use crate::layout::{Node, CHECK, CHOICE, FIELD, MARK, OPTION, SEQUENCE};

#[derive(Clone)]
pub enum Part {
    Field { kind: u8, p: u8, column: u8 },
    Mark(u8),
    Sequence(Vec<Part>),
    Choice(Vec<Part>),
    Option(Box<Part>),
    Check { relation: u8, left: u8, right: u8 },
}

/// What trees are made of.
pub struct Style {
    /// The shares of field, mark, sequence, choice, option and check.
    pub shares: [usize; 6],
    pub most_parts: usize,
    pub depth: usize,
    pub marks: Vec<u8>,
    pub columns: usize,
    pub constants: Vec<i64>,
    /// Whether fields stand with a mark behind each, as in most exports.
    pub separated: bool,
}

impl Style {
    pub fn any(dice: &mut Dice) -> Style {
        let shares = dice.of(&[
            [30, 25, 12, 10, 12, 11],
            [40, 40, 8, 4, 6, 2],
            [20, 20, 15, 20, 20, 5],
            [30, 5, 10, 15, 15, 25],
            [5, 60, 20, 5, 8, 2],
            [10, 10, 40, 20, 20, 0],
        ]);
        let mut marks = vec![b',', b';', b'|', b'a', b'0', b'-', b'.', 0, 0x0A, 0xFF];
        if dice.percent(80) {
            marks.retain(|byte| *byte != 0x0A);
        }
        let count = dice.from_to(1, 4);
        while marks.len() > count {
            marks.remove(dice.below(marks.len()));
        }
        let constants = match dice.weighed(&[50, 40, 10]) {
            0 => Vec::new(),
            1 => (0..dice.from_to(1, 4)).map(|_| constant(dice)).collect(),
            _ => (0..dice.from_to(1, 64)).map(|_| constant(dice)).collect(),
        };
        Style {
            shares,
            most_parts: dice.of(&[2, 3, 4, 6, 12]),
            depth: dice.of(&[2, 3, 4, 6, 16]),
            marks,
            columns: dice.of(&[1, 2, 4, 32]),
            constants,
            separated: dice.percent(40),
        }
    }
}

fn constant(dice: &mut Dice) -> i64 {
    match dice.below(6) {
        0 => dice.of(&[i64::MIN, i64::MAX, -1, 999_999_999_999, -999_999_999_999, 1_000_000_000_000]),
        1 => dice.next() as i64,
        2 => dice.of(&[20240229, 19000101, 21991231]),
        _ => dice.below(4) as i64,
    }
}

/// A kind with a parameter that a family knows.
pub fn known_kind(family: &Family, marks: &[u8], dice: &mut Dice) -> (u8, u8) {
    match family {
        Family::Ascii => match dice.below(8) {
            0..=2 => (1, 0),
            3 | 4 => (2, dice.below(5) as u8),
            5 | 6 => (4, if dice.percent(80) { dice.of(marks) } else { dice.byte() }),
            _ => (6, 0),
        },
        Family::Binary => match dice.below(5) {
            0 | 1 => (1, dice.from_to(1, 4) as u8),
            2 | 3 => (2, dice.from_to(1, 4) as u8),
            _ => (3, if dice.percent(90) { dice.from_to(1, 5) as u8 } else { dice.from_to(1, 255) as u8 }),
        },
        Family::Pair(first, second) => loop {
            let upper = dice.percent(50);
            let (kind, p) = known_kind(if upper { second } else { first }, marks, dice);
            if kind < 32 {
                return (kind + if upper { 32 } else { 0 }, p);
            }
        },
    }
}

/// A random part of at most so many nodes and levels; `left` is what may still be used.
pub fn part(family: &Family, style: &Style, dice: &mut Dice, left: &mut usize, levels: usize) -> Part {
    *left = left.saturating_sub(1);
    let mut shares = style.shares;
    if levels <= 1 || *left == 0 {
        shares[2..5].fill(0);
    }
    match dice.weighed(&shares) {
        0 => field(family, style, dice),
        1 => Part::Mark(dice.of(&style.marks)),
        2 => Part::Sequence(parts(family, style, dice, left, levels)),
        3 => Part::Choice(parts(family, style, dice, left, levels)),
        4 => Part::Option(Box::new(part(family, style, dice, left, levels - 1))),
        _ => check(style, dice),
    }
}

/// One part at least, though `left` may be 0 then: trees may be a node larger than asked for.
pub fn parts(family: &Family, style: &Style, dice: &mut Dice, left: &mut usize, levels: usize) -> Vec<Part> {
    let wanted = dice.from_to(1, style.most_parts);
    let mut parts = vec![part(family, style, dice, left, levels - 1)];
    while parts.len() < wanted && *left > 0 {
        if style.separated && dice.percent(70) {
            *left -= 1;
            parts.push(Part::Mark(dice.of(&style.marks)));
        } else {
            parts.push(part(family, style, dice, left, levels - 1));
        }
    }
    parts
}

pub fn field(family: &Family, style: &Style, dice: &mut Dice) -> Part {
    let (kind, p) = known_kind(family, &style.marks, dice);
    let column = if dice.percent(30) { 0 } else { dice.from_to(1, style.columns) as u8 };
    Part::Field { kind, p, column }
}

pub fn check(style: &Style, dice: &mut Dice) -> Part {
    let right = if !style.constants.is_empty() && dice.percent(60) {
        64 + dice.below(style.constants.len())
    } else {
        dice.from_to(1, style.columns)
    };
    Part::Check { relation: dice.from_to(1, 4) as u8, left: dice.from_to(1, style.columns) as u8, right: right as u8 }
}

impl Part {
    pub fn below(&self) -> Vec<&Part> {
        match self {
            Part::Sequence(parts) | Part::Choice(parts) => parts.iter().collect(),
            Part::Option(part) => vec![part],
            _ => Vec::new(),
        }
    }

    pub fn count(&self) -> usize {
        1 + self.below().iter().map(|part| part.count()).sum::<usize>()
    }

    pub fn depth(&self) -> usize {
        1 + self.below().iter().map(|part| part.depth()).max().unwrap_or(0)
    }

    fn node(&self) -> Node {
        let none = Node::default();
        match self {
            Part::Field { kind, p, column } => {
                Node { shape: FIELD, kind: *kind, parameter: *p, column: *column, ..none }
            }
            Part::Mark(byte) => Node { shape: MARK, parameter: *byte, ..none },
            Part::Sequence(_) => Node { shape: SEQUENCE, ..none },
            Part::Choice(_) => Node { shape: CHOICE, ..none },
            Part::Option(_) => Node { shape: OPTION, ..none },
            Part::Check { relation, left, right } => {
                Node { shape: CHECK, kind: *relation, column: *left, parameter: *right, ..none }
            }
        }
    }
}

/// The file of a tree. Its nodes are numbered in the order of reading, or in any other in which links rise.
pub fn file(root: &Part, constants: &[i64], in_order: bool, dice: &mut Dice) -> Vec<u8> {
    struct Waiting<'a> {
        siblings: Vec<&'a Part>,
        named_by: Option<(usize, bool)>,
    }
    let mut nodes: Vec<Node> = Vec::new();
    let mut waiting = vec![Waiting { siblings: vec![root], named_by: None }];
    while !waiting.is_empty() {
        let which = if in_order { waiting.len() - 1 } else { dice.below(waiting.len()) };
        let Waiting { siblings, named_by } = waiting.remove(which);
        let (first, rest) = (siblings[0], &siblings[1..]);
        nodes.push(first.node());
        let number = nodes.len();
        match named_by {
            Some((namer, true)) => nodes[namer - 1].child = number,
            Some((namer, false)) => nodes[namer - 1].next = number,
            None => {}
        }
        if !rest.is_empty() {
            waiting.push(Waiting { siblings: rest.to_vec(), named_by: Some((number, false)) });
        }
        if !first.below().is_empty() {
            waiting.push(Waiting { siblings: first.below(), named_by: Some((number, true)) });
        }
    }
    packed(&nodes, constants)
}

pub fn packed(nodes: &[Node], constants: &[i64]) -> Vec<u8> {
    let mut bytes = vec![nodes.len() as u8, constants.len() as u8];
    nodes.iter().for_each(|node| bytes.extend(node.record()));
    constants.iter().for_each(|constant| bytes.extend(constant.to_be_bytes()));
    bytes
}

/// Bytes that a part takes, if earlier branches and checks do not stand against it.
pub fn row(part: &Part, family: &Family, dice: &mut Dice) -> Vec<u8> {
    match part {
        Part::Field { kind, p, .. } => {
            if dice.percent(6) { near_field(family, *kind, *p, dice) } else { good_field(family, *kind, *p, dice) }
        }
        Part::Mark(byte) => vec![*byte],
        Part::Sequence(parts) => parts.iter().flat_map(|part| row(part, family, dice)).collect(),
        Part::Choice(parts) => {
            let which = dice.below(parts.len());
            row(&parts[which], family, dice)
        }
        Part::Option(part) => if dice.percent(60) { row(part, family, dice) } else { Vec::new() },
        Part::Check { .. } => Vec::new(),
    }
}

fn small_number(dice: &mut Dice) -> u64 {
    match dice.weighed(&[60, 20, 15, 5]) {
        0 => dice.below(4) as u64,
        1 => dice.below(1000) as u64,
        2 => dice.next() % 1_000_000_000_000,
        _ => dice.of(&[0, 9, 10, 99_999_999_999, 100_000_000_000, 999_999_999_999]),
    }
}

fn good_field(family: &Family, kind: u8, p: u8, dice: &mut Dice) -> Vec<u8> {
    match family {
        Family::Pair(first, second) => {
            if kind < 32 { good_field(first, kind, p, dice) } else { good_field(second, kind - 32, p, dice) }
        }
        Family::Binary => (0..p)
            .map(|_| match dice.below(10) {
                0 => dice.byte(),
                1 | 2 => dice.of(&[0x7F, 0x80, 0x80, 0xFF]),
                _ => dice.below(3) as u8,
            })
            .collect(),
        Family::Ascii => match kind {
            1 => family.spell(1, 0, small_number(dice) as i64),
            2 => {
                let number = small_number(dice) as i64;
                family.spell(2, p, if dice.percent(30) { -number } else { number })
            }
            4 => {
                let length = if dice.percent(90) { dice.below(6) } else { dice.below(60) };
                let mut text: Vec<u8> = (0..length).map(|_| dice.of(b"abc xyz019-.,;\xC3\xFF")).collect();
                text.retain(|byte| *byte != p);
                text
            }
            _ => date(dice).into_bytes(),
        },
    }
}

fn date(dice: &mut Dice) -> String {
    if dice.percent(60) {
        let (year, month) = (dice.from_to(1900, 2199), dice.from_to(1, 12));
        return format!("{year}-{month:02}-{:02}", dice.from_to(1, 28));
    }
    if dice.percent(60) {
        // the last days of months, and those behind them
        let (year, month) = (dice.of(&[1900, 2000, 2023, 2024, 2100, 2199]), dice.from_to(1, 12));
        return format!("{year}-{month:02}-{:02}", dice.from_to(28, 32));
    }
    let year = dice.of(&[1899, 1900, 1904, 2000, 2023, 2024, 2100, 2199, 2200, 0, 9999]);
    let month = dice.of(&[0, 1, 2, 2, 2, 4, 6, 7, 9, 11, 12, 13, 99]);
    let day = dice.of(&[0, 1, 28, 29, 29, 30, 31, 32, 99]);
    format!("{year:04}-{month:02}-{day:02}")
}

/// A spelling that a field of the kind nearly or just takes.
fn near_field(family: &Family, kind: u8, p: u8, dice: &mut Dice) -> Vec<u8> {
    match family {
        Family::Pair(first, second) => {
            if kind < 32 { near_field(first, kind, p, dice) } else { near_field(second, kind - 32, p, dice) }
        }
        Family::Binary => (0..p.saturating_sub(dice.from_to(0, 1) as u8)).map(|_| dice.byte()).collect(),
        Family::Ascii => {
            let digits = |dice: &mut Dice, least: usize, most: usize| -> String {
                (0..dice.from_to(least, most)).map(|_| dice.of(&['0', '0', '1', '9', '5'])).collect()
            };
            let zeros = |count: u8| "0".repeat(count as usize);
            match dice.below(8) {
                6 if p == 0 => b"-0".to_vec(),
                6 => format!("-0.{}", zeros(p)).into_bytes(),
                7 => dice.of(&["0", "00", "01", "-", "-01", "000000000000", "999999999999", "1000000000000"]).into(),
                0 => digits(dice, 0, 14).into_bytes(),
                1 => format!("-{}", digits(dice, 0, 13)).into_bytes(),
                2 => format!("{}.{}", digits(dice, 0, 13), digits(dice, 0, 5)).into_bytes(),
                3 => format!("-{}.{}", digits(dice, 0, 11), digits(dice, p.min(4) as usize, p.min(4) as usize)).into_bytes(),
                4 => {
                    let mut bytes = date(dice).into_bytes();
                    let place = dice.below(bytes.len());
                    bytes[place] = dice.of(b"0-/x9");
                    bytes
                }
                _ => date(dice).into_bytes(),
            }
        }
    }
}

/// A small damage of some bytes.
pub fn damaged(bytes: &[u8], dice: &mut Dice) -> Vec<u8> {
    let mut bytes = bytes.to_vec();
    let near = |dice: &mut Dice, bytes: &[u8]| {
        if !bytes.is_empty() && dice.percent(50) { dice.of(bytes) } else { dice.of(b",;|a0.-x9\x00\xFF1") }
    };
    if bytes.is_empty() {
        return vec![near(dice, &bytes)];
    }
    let place = dice.below(bytes.len());
    match dice.below(9) {
        0 | 1 => bytes[place] = near(dice, &bytes),
        2 => bytes.truncate(place),
        3 | 4 => bytes.insert(place, near(dice, &bytes.clone())),
        5 => bytes.insert(place, bytes[place]),
        6 => drop(bytes.remove(place)),
        7 => bytes.push(near(dice, &bytes.clone())),
        _ => bytes[place] ^= 1 << dice.below(8),
    }
    bytes
}
