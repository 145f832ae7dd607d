// The trace of an export, printing it back, and matching a resent export, as docs/PROGRAM.md and docs/IMPORT.md say.

use crate::fields::Family;
use crate::layout::Layout;
use crate::reading::{self, Report, Seen};
use crate::rows::{Cut, Row, Rule, LONGEST_FILE};

/// An export that was read: its rows with their reports, or the number with which a row was refused.
pub struct Traced {
    pub cut: Cut,
    pub reports: Vec<(Result<Report, u8>, Seen)>,
    pub layout: Layout,
}

/// Reads all rows of an export; refused with 11, then 8, then 1 to 7.
pub fn traced(rule: &Rule, family: &Family, layout: &[u8], export: &[u8]) -> Result<Traced, u8> {
    if !rule.can_be_made() {
        return Err(11);
    }
    if export.len() > LONGEST_FILE {
        return Err(8);
    }
    let layout = Layout::load(family, layout)?;
    let cut = rule.cut(export);
    let reports = cut.rows.iter().map(|row| reading::read(&layout, family, row.bytes(export))).collect();
    Ok(Traced { cut, reports, layout })
}

/// The records of the whole: of a refusal, or of each row, the tail and the counts.
pub fn records(traced: &Result<Traced, u8>, export: &[u8]) -> Vec<String> {
    let traced = match traced {
        Ok(traced) => traced,
        Err(number) => return vec![format!("refused {number}")],
    };
    let mut records = Vec::new();
    let mut kept = 0;
    for (before, (row, (report, _))) in traced.cut.rows.iter().zip(&traced.reports).enumerate() {
        records.push(format!("row {} {} {} {}", before + 1, row.start, row.length, row.mark()));
        match report {
            Ok(report) => report_records(report, &mut records),
            Err(number) => records.push(format!("refused {number}")),
        }
        if matches!(report, Ok(report) if report.faults() == 0) {
            kept += 1;
            records.push("filed kept".to_string());
        } else {
            records.push("filed set-aside".to_string());
        }
    }
    let tail = traced.cut.tail;
    records.push(format!("tail {} {}", tail, export.len() - tail));
    let opened = traced.cut.rows.len();
    records.push(format!("counts {opened} {kept} {}", opened - kept));
    records
}

fn report_records(report: &Report, records: &mut Vec<String>) {
    for line in &report.lines {
        let (node, outcome, start) = (line.node, line.outcome, line.start);
        records.push(format!("line {node} {outcome} {start} {} {}", line.length, line.number));
    }
    if report.kept.is_empty() {
        records.push("kept-text".to_string());
    } else {
        records.push(format!("kept-text {}", hex(&report.kept)));
    }
    records.push(format!("faults {}", report.faults()));
}

pub fn hex(bytes: &[u8]) -> String {
    const DIGITS: &[u8; 16] = b"0123456789abcdef";
    let mut text = String::with_capacity(2 * bytes.len());
    for byte in bytes {
        text.push(DIGITS[(byte >> 4) as usize] as char);
        text.push(DIGITS[(byte & 15) as usize] as char);
    }
    text
}

/// The export again, from reports, marks and the tail alone; up to a row that is not read, whose number and refusal are told.
pub fn printed(rule: &Rule, family: &Family, traced: &Traced, export: &[u8]) -> (Vec<u8>, Option<(usize, u8)>) {
    let mut bytes = Vec::new();
    for (before, (row, (report, _))) in traced.cut.rows.iter().zip(&traced.reports).enumerate() {
        match report {
            Ok(report) => {
                let row_again = reading::print(&traced.layout, family, report);
                bytes.extend(rule.frame(&row_again, row.ended));
            }
            Err(number) => return (bytes, Some((before + 1, *number))),
        }
    }
    bytes.extend_from_slice(&export[traced.cut.tail..]);
    (bytes, None)
}

#[derive(PartialEq, Debug, Clone, Copy)]
pub enum Difference {
    Report,
    Mark,
    MissingInFirst,
    MissingInResent,
    Tail,
}

impl Difference {
    pub fn words(&self) -> &'static str {
        match self {
            Difference::Report => "another report",
            Difference::Mark => "another mark",
            Difference::MissingInFirst => "missing in the first export",
            Difference::MissingInResent => "missing in the resent export",
            Difference::Tail => "another tail",
        }
    }
}

#[derive(PartialEq, Debug, Clone, Copy)]
pub enum Matched {
    Same,
    Differs(usize, Difference),
    /// The read of a row was refused: the row, and the number.
    NotRead(usize, u8),
}

/// Goes over the rows of two exports side by side, and looks at reports, marks and tails alone.
/// Both rows of a number are read before they are looked at, the first export's first; the report is looked at before the mark.
pub fn matched(first: &Traced, export: &[u8], resent: &Traced, resent_export: &[u8]) -> Matched {
    let row = |traced: &Traced, number: usize| traced.cut.rows.get(number - 1).copied();
    let mut number = 1;
    loop {
        for side in [first, resent] {
            if let Some((Err(refusal), _)) = side.reports.get(number - 1) {
                return Matched::NotRead(number, *refusal);
            }
        }
        let (one, other): (Row, Row) = match (row(first, number), row(resent, number)) {
            (Some(one), Some(other)) => (one, other),
            (Some(_), None) => return Matched::Differs(number, Difference::MissingInResent),
            (None, Some(_)) => return Matched::Differs(number, Difference::MissingInFirst),
            (None, None) => break,
        };
        if first.reports[number - 1].0 != resent.reports[number - 1].0 {
            return Matched::Differs(number, Difference::Report);
        }
        if one.ended != other.ended {
            return Matched::Differs(number, Difference::Mark);
        }
        number += 1;
    }
    if export[first.cut.tail..] != resent_export[resent.cut.tail..] {
        return Matched::Differs(number, Difference::Tail);
    }
    Matched::Same
}
