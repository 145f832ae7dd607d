// A second implementation of the rules, written from docs/ alone, and a maker of cases for the library to be compared on.

mod cases;
mod dice;
mod fields;
mod inputs;
mod layout;
mod reading;
mod rows;
mod tally;
mod trace;
mod trees;

use std::fs;
use std::io::Write;
use std::process::exit;

use cases::Case;
use dice::Dice;
use fields::Family;
use inputs::Input;
use rows::Rule;
use tally::Tally;
use trace::Matched;

const USE: &str = "second trace RULE FAMILY LAYOUT FILE           writes the records of an export
second print RULE FAMILY LAYOUT FILE           writes it again from its reports
second match RULE FAMILY LAYOUT FILE RESENT    says the first row that differs, and how
second check FILE                              runs the cases of a file through this implementation
second make SEED FIRST COUNT                   writes random cases on standard output, and what they reach on standard error
second large                                   writes cases of the longest files
second files SEED FIRST COUNT FOLDER           writes for each random case NUMBER.layout and NUMBER.export, and what trace and print
                                               write then, as NUMBER.traced and NUMBER.printed; on standard output NUMBER,
                                               the numbers with which the two are refused (0: not), RULE and FAMILY";

type Done = Result<(), String>;

fn main() {
    let words: Vec<String> = std::env::args().skip(1).collect();
    let words: Vec<&str> = words.iter().map(String::as_str).collect();
    let done = match words[..] {
        ["trace", rule, family, layout, file] => trace(rule, family, layout, file),
        ["print", rule, family, layout, file] => print(rule, family, layout, file),
        ["match", rule, family, layout, file, resent] => matched(rule, family, layout, file, resent),
        ["check", file] => check(file),
        ["make", seed, first, count] => make(seed, first, count),
        ["files", seed, first, count, folder] => files(seed, first, count, folder),
        ["large"] => write_cases(inputs::large().into_iter().enumerate().map(|(place, input)| (format!("large-{place}"), input)), 0),
        _ => Err(USE.to_string()),
    };
    if let Err(problem) = done {
        eprintln!("{problem}");
        exit(1);
    }
}

fn input(rule: &str, family: &str, layout: &str, file: &str) -> Result<Input, String> {
    let bytes = |name: &str| fs::read(name).map_err(|problem| format!("{name}: {problem}"));
    Ok(Input { kind: "given", rule: rule.into(), family: family.into(), layout: bytes(layout)?, export: bytes(file)? })
}

fn trace(rule: &str, family: &str, layout: &str, file: &str) -> Done {
    let input = input(rule, family, layout, file)?;
    for record in trace::records(&cases::traced(&input)?, &input.export) {
        println!("{record}");
    }
    Ok(())
}

fn print(rule: &str, family: &str, layout: &str, file: &str) -> Done {
    let input = input(rule, family, layout, file)?;
    let traced = cases::traced(&input)?.map_err(|number| format!("refused {number}"))?;
    let (rule, family) = (Rule::of_words(rule).unwrap(), Family::of_words(family).unwrap());
    let (bytes, stopped) = trace::printed(&rule, &family, &traced, &input.export);
    std::io::stdout().write_all(&bytes).map_err(|problem| problem.to_string())?;
    match stopped {
        Some((row, number)) => Err(format!("row {row} is not read, number {number}")),
        None => Ok(()),
    }
}

fn matched(rule: &str, family: &str, layout: &str, file: &str, resent: &str) -> Done {
    let (first, other) = (input(rule, family, layout, file)?, input(rule, family, layout, resent)?);
    let read = |input: &Input| cases::traced(input)?.map_err(|number| format!("refused {number}"));
    match trace::matched(&read(&first)?, &first.export, &read(&other)?, &other.export) {
        Matched::Same => println!("the same"),
        Matched::Differs(row, difference) => println!("row {row}: {}", difference.words()),
        Matched::NotRead(row, number) => return Err(format!("row {row} is not read, number {number}")),
    }
    Ok(())
}

fn check(file: &str) -> Done {
    let text = fs::read_to_string(file).map_err(|problem| format!("{file}: {problem}"))?;
    let cases: Vec<Case> = cases::read(&text)?;
    let mut agreeing = 0;
    for case in &cases {
        let records = trace::records(&cases::traced(&case.input)?, &case.input.export);
        if records == case.wanted {
            agreeing += 1;
            continue;
        }
        let place = (0..).find(|place| records.get(*place) != case.wanted.get(*place)).unwrap();
        println!("{}: record {}: here {:?}, wanted {:?}", case.name, place + 1, records.get(place), case.wanted.get(place));
    }
    println!("{agreeing} of {} cases agree", cases.len());
    if agreeing == cases.len() { Ok(()) } else { Err("not all agree".to_string()) }
}

fn number(word: &str) -> Result<u64, String> {
    rows::number(word).ok_or_else(|| format!("no number: {word}"))
}

fn make(seed: &str, first: &str, count: &str) -> Done {
    let (seed, first, count) = (number(seed)?, number(first)?, number(count)?);
    let made = (first..first + count).map(|number| {
        let input = inputs::input(seed, number);
        (format!("{}-{seed}-{number}", input.kind), input)
    });
    write_cases(made, seed ^ first)
}

/// What the program is to write: the records of a trace that was not refused, and the export again.
fn files(seed: &str, first: &str, count: &str, folder: &str) -> Done {
    let (seed, first, count) = (number(seed)?, number(first)?, number(count)?);
    for number in first..first + count {
        let input = inputs::input(seed, number);
        let (mut records, mut bytes, mut stops) = (String::new(), Vec::new(), (0, 0));
        match cases::traced(&input)? {
            Ok(traced) => {
                let (rule, family) = (Rule::of_words(&input.rule).unwrap(), Family::of_words(&input.family).unwrap());
                let (printed, stopped) = trace::printed(&rule, &family, &traced, &input.export);
                (bytes, stops.1) = (printed, stopped.map_or(0, |(_, refusal)| refusal));
                trace::records(&Ok(traced), &input.export).iter().for_each(|record| records += &format!("{record}\n"));
            }
            Err(refusal) => stops = (refusal, refusal),
        }
        let write = |end: &str, bytes: &[u8]| {
            fs::write(format!("{folder}/{number}.{end}"), bytes).map_err(|problem| problem.to_string())
        };
        write("layout", &input.layout)?;
        write("export", &input.export)?;
        write("traced", records.as_bytes())?;
        write("printed", &bytes)?;
        println!("{number} {} {} {} {}", stops.0, stops.1, input.rule, input.family);
    }
    Ok(())
}

fn write_cases(inputs: impl Iterator<Item = (String, Input)>, seed: u64) -> Done {
    let mut dice = Dice::new(seed, u64::MAX);
    let mut tally = Tally::default();
    let mut out = std::io::BufWriter::new(std::io::stdout().lock());
    for (name, input) in inputs {
        let traced = cases::traced(&input)?;
        let records = trace::records(&traced, &input.export);
        tally.input(&input, &traced);
        if let Some(doubt) = tally::doubts(&input, &traced, &mut dice, &mut tally) {
            return Err(format!("{name}: {doubt}"));
        }
        out.write_all(cases::written(&name, &input, &records).as_bytes()).map_err(|problem| problem.to_string())?;
    }
    out.flush().map_err(|problem| problem.to_string())?;
    eprint!("{}", tally.lines());
    Ok(())
}
