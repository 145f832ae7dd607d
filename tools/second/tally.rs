// What inputs reach, counted; and what must hold of this implementation itself on each of them.

use std::collections::BTreeMap;

use crate::dice::Dice;
use crate::fields::Family;
use crate::inputs::Input;
use crate::layout;
use crate::reading;
use crate::rows::Rule;
use crate::trace::{self, Matched, Traced};
use crate::trees;

#[derive(Default)]
pub struct Tally(BTreeMap<String, usize>);

impl Tally {
    fn add(&mut self, what: &str, count: usize) {
        if count > 0 {
            *self.0.entry(what.to_string()).or_default() += count;
        }
    }

    /// A line for each count: its words and then the number.
    pub fn lines(&self) -> String {
        self.0.iter().map(|(what, count)| format!("{what}: {count}\n")).collect()
    }

    pub fn input(&mut self, input: &Input, traced: &Result<Traced, u8>) {
        self.add("cases", 1);
        self.add(&format!("kind {}", input.kind), 1);
        let family = Family::of_words(&input.family).unwrap();
        let numbers = layout::refusals(&family, &input.layout);
        let rule_refused = !Rule::of_words(&input.rule).unwrap().can_be_made();
        self.add("layouts to which two or more numbers apply", (numbers.len() > 1) as usize);
        self.add("rule and layout both refused", (rule_refused && !numbers.is_empty()) as usize);
        match traced {
            Err(number) => self.add(&format!("cases refused {number:02}"), 1),
            Ok(traced) => self.traced(input, traced),
        }
    }

    fn traced(&mut self, input: &Input, traced: &Traced) {
        let nodes = traced.layout.nodes.len();
        self.add("cases read", 1);
        self.add("layouts of 200 nodes", (nodes == 200) as usize);
        self.add("layouts of 100 nodes and more", (nodes >= 100) as usize);
        self.add("layouts of 64 constants", (traced.layout.constants.len() == 64) as usize);
        self.add("rule a sample", input.rule.starts_with("sample:") as usize);
        self.add("rule a sample of a sample", input.rule.starts_with("sample:") as usize * (input.rule.matches("sample:").count() > 1) as usize);
        self.add("rule with a fixed width", input.rule.contains("fixed:") as usize);
        self.add("family of a pair", input.family.starts_with("pair:") as usize);
        self.add("family binary", (input.family == "binary") as usize);
        self.add("export empty", input.export.is_empty() as usize);
        let last_unended = input.rule.contains("newline") && input.export.last().is_some_and(|byte| *byte != 0x0A);
        self.add("export without a last newline, by newline", last_unended as usize);
        self.add("tail not empty", (traced.cut.tail < input.export.len()) as usize);
        for (row, (report, seen)) in traced.cut.rows.iter().zip(&traced.reports) {
            self.add("rows", 1);
            self.add("rows empty", (row.length == 0) as usize);
            self.add("rows unended", !row.ended as usize);
            self.add("rows of 4,096 bytes", (row.length == 4096) as usize);
            self.add("rows of 4,097 bytes", (row.length == 4097) as usize);
            self.seen(seen);
            match report {
                Err(number) => self.add(&format!("rows refused {number:02}"), 1),
                Ok(report) => self.report(traced, report),
            }
        }
    }

    fn seen(&mut self, seen: &reading::Seen) {
        self.add("rows with a reach above 400", (seen.reach > 400) as usize);
        for reach in 510..=515 {
            self.add(&format!("rows with a reach of {reach}"), (seen.reach == reach) as usize);
        }
        self.add("trials given up", seen.trials_given_up);
        self.add("rows with a trial given up", (seen.trials_given_up > 0) as usize);
        self.add("checks in trials", seen.checks_in_trials);
        self.add("checks in trials that fail", seen.faulty_checks_in_trials);
        self.add("breaks whose mark is found", seen.marks_found);
        self.add("breaks whose mark is not found", seen.marks_not_found);
    }

    fn report(&mut self, traced: &Traced, report: &reading::Report) {
        self.add(if report.faults() == 0 { "rows filed kept" } else { "rows read with faults" }, 1);
        self.add("rows with kept text", !report.kept.is_empty() as usize);
        for line in &report.lines {
            self.add(&format!("lines with outcome {}", line.outcome), 1);
            self.add("lines of node 0", (line.node == 0) as usize);
            if line.outcome == reading::SYNTAX_FAULT {
                self.add(&format!("syntax faults with number {}", line.number), 1);
            }
            if line.node > 0 && line.outcome == reading::GOOD {
                let shape = traced.layout.node(line.node).shape;
                self.add("choices that take a later branch", (shape == layout::CHOICE && line.number > 1) as usize);
                self.add("checks that hold", (shape == layout::CHECK) as usize);
            }
        }
    }
}

/// What the documents promise of reports, told of this implementation; the first that fails, in words.
pub fn doubts(input: &Input, traced: &Result<Traced, u8>, dice: &mut Dice, tally: &mut Tally) -> Option<String> {
    let traced = traced.as_ref().ok()?;
    if input.export.len() > 1_000_000 {
        return None;
    }
    let (rule, family) = (Rule::of_words(&input.rule)?, Family::of_words(&input.family)?);
    for (row, (report, _)) in traced.cut.rows.iter().zip(&traced.reports) {
        let Ok(report) = report else { continue };
        let bytes = row.bytes(&input.export);
        if reading::print(&traced.layout, &family, report) != bytes {
            return Some("a report does not print its row".to_string());
        }
        if (report.faults() == 0) != reading::meets(&traced.layout, &family, bytes) {
            return Some("no fault is not the same as meeting the layout".to_string());
        }
    }
    let (again, stopped) = trace::printed(&rule, &family, traced, &input.export);
    if stopped.is_none() && again != input.export {
        return Some("the export is not printed again".to_string());
    }
    let resent = if dice.percent(20) { input.export.clone() } else { trees::damaged(&input.export, dice) };
    let other = trace::traced(&rule, &family, &input.layout, &resent).ok()?;
    let answer = trace::matched(traced, &input.export, &other, &resent);
    let wrong = match answer {
        Matched::Same => resent != input.export,
        Matched::Differs(..) => resent == input.export,
        Matched::NotRead(..) => false,
    };
    let said = match answer {
        Matched::Same => "the same",
        Matched::Differs(_, difference) => difference.words(),
        Matched::NotRead(..) => "not read",
    };
    tally.add(&format!("matches that say `{said}`"), 1);
    if wrong { Some(format!("a match says {answer:?}")) } else { None }
}
