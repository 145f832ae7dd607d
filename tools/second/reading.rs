// The report of a row under a layout and a family, read by recursion, and printed back, as docs/REPORTS.md says.

use crate::fields::{Family, Sort};
use crate::layout::{Layout, CHECK, CHOICE, FIELD, MARK, OPTION, SEQUENCE};

pub const GOOD: u8 = 0;
pub const SYNTAX_FAULT: u8 = 1;
pub const CHECK_FAULT: u8 = 2;
pub const ABSENT: u8 = 3;
pub const SKIPPED: u8 = 4;
pub const FAULT_BELOW: u8 = 5;
pub const SCRAP: u8 = 6;

#[derive(Clone, Copy, PartialEq, Debug)]
pub struct Line {
    pub node: usize,
    pub outcome: u8,
    pub start: usize,
    pub length: usize,
    pub number: i64,
}

impl Line {
    pub fn is_fault(&self) -> bool {
        self.outcome == SYNTAX_FAULT || self.outcome == CHECK_FAULT
    }
}

#[derive(PartialEq)]
pub struct Report {
    pub lines: Vec<Line>,
    pub kept: Vec<u8>,
}

impl Report {
    pub fn faults(&self) -> usize {
        self.lines.iter().filter(|line| line.is_fault()).count()
    }
}

/// What was seen while a row was read, apart from its report.
#[derive(Default, Clone, Copy)]
pub struct Seen {
    pub reach: usize,
    pub trials_given_up: usize,
    pub checks_in_trials: usize,
    pub faulty_checks_in_trials: usize,
    pub marks_found: usize,
    pub marks_not_found: usize,
}

#[derive(Clone, Copy, PartialEq)]
enum Manner {
    Open,
    Trial,
}

#[derive(Clone, Copy, PartialEq)]
enum End {
    /// The part was read; in a trial, without a fault.
    Whole,
    /// An open reading that cannot go on.
    Broke,
    /// A fault in a trial.
    GivenUp,
}

struct Reader<'a> {
    layout: &'a Layout,
    family: &'a Family,
    row: &'a [u8],
    lines: Vec<Line>,
    place: usize,
    seen: Seen,
}

/// The report of a row, or 9 or 10 where it is refused.
pub fn read(layout: &Layout, family: &Family, row: &[u8]) -> (Result<Report, u8>, Seen) {
    if row.len() > 4096 {
        return (Err(9), Seen::default());
    }
    let mut reader = Reader { layout, family, row, lines: Vec::new(), place: 0, seen: Seen::default() };
    reader.row();
    if reader.seen.reach > 512 {
        return (Err(10), reader.seen);
    }
    let kept = kept_text(layout, family, row, &reader.lines);
    (Ok(Report { lines: reader.lines, kept }), reader.seen)
}

/// Whether a row meets a layout: the root, read as a trial, is clean and takes the whole row.
pub fn meets(layout: &Layout, family: &Family, row: &[u8]) -> bool {
    let mut reader = Reader { layout, family, row, lines: Vec::new(), place: 0, seen: Seen::default() };
    reader.part(1, Manner::Trial) == End::Whole && reader.place == row.len()
}

impl Reader<'_> {
    fn row(&mut self) {
        let end = self.part(1, Manner::Open);
        let left = self.row.len() - self.place;
        if end == End::Whole && left > 0 {
            let line = self.write(0);
            self.lines[line].outcome = SYNTAX_FAULT;
            self.lines[line].number = 6;
        }
        if left > 0 {
            let line = self.write(0);
            self.lines[line].outcome = SCRAP;
            self.lines[line].length = left;
        }
    }

    /// Writes a line that begins at the place, and says which it is.
    fn write(&mut self, node: usize) -> usize {
        self.lines.push(Line { node, outcome: GOOD, start: self.place, length: 0, number: 0 });
        self.seen.reach = self.seen.reach.max(self.lines.len());
        self.lines.len() - 1
    }

    fn part(&mut self, number: usize, manner: Manner) -> End {
        match self.layout.node(number).shape {
            FIELD => self.field(number, manner),
            MARK => self.mark(number, manner),
            CHECK => self.check(number, manner),
            CHOICE => self.choice(number, manner),
            OPTION => self.option(number),
            SEQUENCE if manner == Manner::Trial => self.sequence_in_trial(number),
            SEQUENCE => self.sequence(number),
            _ => unreachable!("a shape that an accepted layout does not have"),
        }
    }

    /// A fault that breaks an open reading, and gives up a trial.
    fn fault(&mut self, line: usize, number: i64, manner: Manner) -> End {
        self.lines[line].outcome = SYNTAX_FAULT;
        self.lines[line].number = number;
        if manner == Manner::Trial { End::GivenUp } else { End::Broke }
    }

    fn field(&mut self, number: usize, manner: Manner) -> End {
        let node = *self.layout.node(number);
        let line = self.write(number);
        match self.family.read(node.kind, node.parameter, &self.row[self.place..]) {
            Ok((length, value)) => {
                self.lines[line].length = length;
                self.lines[line].number = value;
                self.place += length;
                End::Whole
            }
            Err(cause) => self.fault(line, cause, manner),
        }
    }

    fn mark(&mut self, number: usize, manner: Manner) -> End {
        let byte = self.layout.node(number).parameter;
        let line = self.write(number);
        match self.row.get(self.place) {
            Some(there) if *there == byte => {
                self.lines[line].length = 1;
                self.place += 1;
                End::Whole
            }
            Some(_) => self.fault(line, 2, manner),
            None => self.fault(line, 1, manner),
        }
    }

    fn check(&mut self, number: usize, manner: Manner) -> End {
        let node = *self.layout.node(number);
        let left = self.value(node.column);
        let right = match node.parameter {
            64.. => Some(self.layout.constants[node.parameter as usize - 64]),
            column => self.value(column),
        };
        let line = self.write(number);
        if manner == Manner::Trial {
            self.seen.checks_in_trials += 1;
        }
        let (Some(left), Some(right)) = (left, right) else {
            self.lines[line].outcome = SKIPPED;
            return End::Whole;
        };
        let holds = match node.kind {
            1 => left == right,
            2 => left != right,
            3 => left < right,
            _ => left <= right,
        };
        if holds {
            return End::Whole;
        }
        self.lines[line].outcome = CHECK_FAULT;
        if manner == Manner::Trial {
            self.seen.faulty_checks_in_trials += 1;
            return End::GivenUp;
        }
        End::Whole
    }

    /// The value of a column: the number of the latest good field line with it.
    fn value(&self, column: u8) -> Option<i64> {
        let has = |line: &&Line| {
            line.node != 0 && line.outcome == GOOD && {
                let node = self.layout.node(line.node);
                node.shape == FIELD && node.column == column
            }
        };
        self.lines.iter().rev().find(has).map(|line| line.number)
    }

    /// Tries a part: what it wrote goes, and the place goes back, where it has a fault.
    fn clean(&mut self, part: usize) -> bool {
        let (lines, place) = (self.lines.len(), self.place);
        if self.part(part, Manner::Trial) == End::Whole {
            return true;
        }
        self.lines.truncate(lines);
        self.place = place;
        self.seen.trials_given_up += 1;
        false
    }

    fn choice(&mut self, number: usize, manner: Manner) -> End {
        let line = self.write(number);
        for (before, part) in self.layout.parts(number).into_iter().enumerate() {
            if self.clean(part) {
                self.lines[line].length = self.place - self.lines[line].start;
                self.lines[line].number = before as i64 + 1;
                return End::Whole;
            }
        }
        self.fault(line, 5, manner)
    }

    fn option(&mut self, number: usize) -> End {
        let line = self.write(number);
        if self.clean(self.layout.parts(number)[0]) {
            self.lines[line].length = self.place - self.lines[line].start;
            self.lines[line].number = 1;
        } else {
            self.lines[line].outcome = ABSENT;
        }
        End::Whole
    }

    fn sequence_in_trial(&mut self, number: usize) -> End {
        let line = self.write(number);
        for part in self.layout.parts(number) {
            if self.part(part, Manner::Trial) == End::GivenUp {
                return End::GivenUp;
            }
        }
        self.lines[line].length = self.place - self.lines[line].start;
        End::Whole
    }

    fn sequence(&mut self, number: usize) -> End {
        let line = self.write(number);
        let parts = self.layout.parts(number);
        let mut end = End::Whole;
        let mut at = 0;
        while at < parts.len() {
            if self.part(parts[at], Manner::Open) == End::Whole {
                at += 1;
                continue;
            }
            match self.sought(&parts, at) {
                Some((mark, place)) => {
                    self.pass_over(&parts[at + 1..mark.max(at + 1)]);
                    self.take_sought(parts[mark], place);
                    self.seen.marks_found += 1;
                    at = mark + 1;
                }
                None => {
                    self.pass_over(&parts[at + 1..]);
                    self.seen.marks_not_found += 1;
                    end = End::Broke;
                    at = parts.len();
                }
            }
        }
        self.lines[line].length = self.place - self.lines[line].start;
        if self.lines[line + 1..].iter().any(|below| below.is_fault()) {
            self.lines[line].outcome = FAULT_BELOW;
        }
        end
    }

    /// The mark that a break seeks: which part it is, and where its byte stands first, at or after the place.
    fn sought(&self, parts: &[usize], broken: usize) -> Option<(usize, usize)> {
        let mark = (broken..parts.len()).find(|part| self.layout.node(parts[*part]).shape == MARK)?;
        let byte = self.layout.node(parts[mark]).parameter;
        let place = (self.place..self.row.len()).find(|place| self.row[*place] == byte)?;
        Some((mark, place))
    }

    fn pass_over(&mut self, parts: &[usize]) {
        for part in parts {
            let line = self.write(*part);
            self.lines[line].outcome = SKIPPED;
        }
    }

    fn take_sought(&mut self, mark: usize, place: usize) {
        if place > self.place {
            let line = self.write(mark);
            self.lines[line].outcome = SCRAP;
            self.lines[line].length = place - self.place;
            self.place = place;
        }
        let line = self.write(mark);
        self.lines[line].length = 1;
        self.place += 1;
    }
}

fn keeps(layout: &Layout, family: &Family, line: &Line) -> bool {
    if line.outcome == SCRAP {
        return true;
    }
    if line.outcome != GOOD {
        return false;
    }
    let node = layout.node(line.node);
    node.shape == FIELD && family.sort(node.kind, node.parameter) == Sort::Kept
}

fn kept_text(layout: &Layout, family: &Family, row: &[u8], lines: &[Line]) -> Vec<u8> {
    let mut kept = Vec::new();
    for line in lines {
        if keeps(layout, family, line) {
            kept.extend_from_slice(&row[line.start..line.start + line.length]);
        }
    }
    kept
}

/// The bytes that a report stands for.
pub fn print(layout: &Layout, family: &Family, report: &Report) -> Vec<u8> {
    let mut bytes = Vec::new();
    let mut kept = &report.kept[..];
    for line in &report.lines {
        if keeps(layout, family, line) {
            bytes.extend_from_slice(&kept[..line.length]);
            kept = &kept[line.length..];
        } else if line.outcome == GOOD {
            let node = layout.node(line.node);
            match node.shape {
                FIELD => bytes.extend(family.spell(node.kind, node.parameter, line.number)),
                MARK => bytes.push(node.parameter),
                _ => {}
            }
        }
    }
    bytes
}
