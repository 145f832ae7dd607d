// Row rules: how a file is cut into rows and a tail, as docs/ROWS.md says.

pub const LONGEST_FILE: usize = 16_777_216;

pub enum Rule {
    Newline,
    Fixed(u64),
    Sample(u64, Box<Rule>),
}

#[derive(Clone, Copy, PartialEq)]
pub struct Row {
    pub start: usize,
    pub length: usize,
    pub ended: bool,
}

impl Row {
    pub fn bytes<'a>(&self, file: &'a [u8]) -> &'a [u8] {
        &file[self.start..self.start + self.length]
    }

    pub fn mark(&self) -> &'static str {
        if self.ended { "ended" } else { "unended" }
    }
}

/// The rows of a file, and where its tail begins.
pub struct Cut {
    pub rows: Vec<Row>,
    pub tail: usize,
}

impl Rule {
    /// The rule of some words of a command or a case; none where they are no rule.
    pub fn of_words(words: &str) -> Option<Rule> {
        if words == "newline" {
            return Some(Rule::Newline);
        }
        if let Some(width) = words.strip_prefix("fixed:") {
            return Some(Rule::Fixed(number(width)?));
        }
        let (count, below) = words.strip_prefix("sample:")?.split_once(':')?;
        Some(Rule::Sample(number(count)?, Box::new(Rule::of_words(below)?)))
    }

    /// Whether the rule can be made: number 11 otherwise.
    pub fn can_be_made(&self) -> bool {
        match self {
            Rule::Newline => true,
            Rule::Fixed(width) => (1..=4096).contains(width),
            Rule::Sample(count, below) => below.can_be_made() && *count <= 16_777_216,
        }
    }

    pub fn cut(&self, file: &[u8]) -> Cut {
        match self {
            Rule::Newline => {
                let mut rows = Vec::new();
                let mut start = 0;
                for place in 0..file.len() {
                    if file[place] == 0x0A {
                        rows.push(Row { start, length: place - start, ended: true });
                        start = place + 1;
                    }
                }
                if start < file.len() {
                    rows.push(Row { start, length: file.len() - start, ended: false });
                }
                Cut { rows, tail: file.len() }
            }
            Rule::Fixed(width) => {
                let width = *width as usize;
                let mut rows = Vec::new();
                let mut start = 0;
                while file.len() - start >= width {
                    rows.push(Row { start, length: width, ended: true });
                    start += width;
                }
                Cut { rows, tail: start }
            }
            Rule::Sample(count, below) => {
                let all = below.cut(file);
                if all.rows.len() as u64 <= *count {
                    return all;
                }
                let rows = all.rows[..*count as usize].to_vec();
                let tail = match rows.last() {
                    None => 0,
                    Some(row) => row.start + below.frame(row.bytes(file), row.ended).len(),
                };
                Cut { rows, tail }
            }
        }
    }

    pub fn frame(&self, row: &[u8], ended: bool) -> Vec<u8> {
        let mut frame = row.to_vec();
        match self {
            Rule::Newline => {
                if ended {
                    frame.push(0x0A);
                }
            }
            Rule::Fixed(_) => {}
            Rule::Sample(_, below) => return below.frame(row, ended),
        }
        frame
    }
}

/// Decimal digits and nothing else; a number too large for 64 bits is too large for every limit.
pub fn number(digits: &str) -> Option<u64> {
    if digits.is_empty() || !digits.bytes().all(|digit| digit.is_ascii_digit()) {
        return None;
    }
    Some(digits.parse().unwrap_or(u64::MAX))
}
