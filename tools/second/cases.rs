// Case files, as docs/PROGRAM.md says under "Cases": written with what this implementation wants, and read.

use crate::fields::Family;
use crate::inputs::Input;
use crate::rows::Rule;
use crate::trace;

/// A case with the records that it wants.
pub struct Case {
    pub name: String,
    pub input: Input,
    pub wanted: Vec<String>,
}

pub fn written(name: &str, input: &Input, records: &[String]) -> String {
    let word = |word: &str, bytes: &[u8]| {
        if bytes.is_empty() { word.to_string() } else { format!("{word} {}", trace::hex(bytes)) }
    };
    format!(
        "case {name}\nrule {}\nfamily {}\n{}\n{}\nexpect\n{}\nend\n",
        input.rule,
        input.family,
        word("layout", &input.layout),
        word("export", &input.export),
        records.join("\n"),
    )
}

/// The cases of a file; other lines between them (empty ones, comments) are passed over.
pub fn read(text: &str) -> Result<Vec<Case>, String> {
    let mut cases = Vec::new();
    let mut lines = text.lines();
    while let Some(line) = lines.next() {
        let Some(name) = line.strip_prefix("case ") else { continue };
        let mut rest = |word: &str| -> Result<String, String> {
            let line = lines.next().unwrap_or_default();
            let rest = line.strip_prefix(word).ok_or_else(|| format!("{name}: no line {word}"))?;
            Ok(rest.trim().to_string())
        };
        let (rule, family) = (rest("rule")?, rest("family")?);
        let (layout, export) = (bytes(&rest("layout")?)?, bytes(&rest("export")?)?);
        rest("expect")?;
        let wanted = lines.by_ref().take_while(|line| *line != "end").map(str::to_string).collect();
        let input = Input { kind: "given", rule, family, layout, export };
        cases.push(Case { name: name.to_string(), input, wanted });
    }
    Ok(cases)
}

fn bytes(hex: &str) -> Result<Vec<u8>, String> {
    let digits: Vec<u32> = hex.chars().map(|digit| digit.to_digit(16).ok_or_else(|| format!("no hex: {hex}"))).collect::<Result<_, _>>()?;
    if digits.len() % 2 != 0 {
        return Err(format!("half a byte: {hex}"));
    }
    Ok(digits.chunks(2).map(|pair| (16 * pair[0] + pair[1]) as u8).collect())
}

pub fn traced(input: &Input) -> Result<Result<trace::Traced, u8>, String> {
    let rule = Rule::of_words(&input.rule).ok_or_else(|| format!("no rule: {}", input.rule))?;
    let family = Family::of_words(&input.family).ok_or_else(|| format!("no family: {}", input.family))?;
    Ok(trace::traced(&rule, &family, &input.layout, &input.export))
}
