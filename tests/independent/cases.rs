//! The sheets of the program's cases. They have the inputs; what the program must write is made
//! here. vectors/README.md says what the format is.

use crate::program;
use std::collections::BTreeMap;

const LONGEST_LINE: usize = 280;

struct Case {
    name: String,
    line: usize,
    input: Vec<u8>,
}

/// Where the cases of all sheets stand, by their names.
pub type Places = BTreeMap<String, String>;

/// The text of a sheet, its answers made anew, and how many cases it has.
pub fn anew(file: &str, text: &str, places: &mut Places) -> Result<(String, usize), String> {
    let (mut made, mut case, before) = (String::new(), None, places.len());
    for (line, number) in text.lines().zip(1..) {
        if line.is_empty() {
            made += &answer(case.take())?;
        }
        read(line, number, &mut case).map_err(|what| format!("line {number}: {what}"))?;
        if let Some(Case { name, .. }) = case.as_ref().filter(|case| case.line == number) {
            if let Some(other) = places.insert(name.clone(), format!("{file}, line {number}")) {
                return Err(format!("line {number}: case {name} is in {other} too"));
            }
        }
        if !line.starts_with('>') {
            made += line;
            made += "\n";
        }
    }
    Ok((made + &answer(case)?, places.len() - before))
}

/// Begins a case, or adds to its input.
fn read(line: &str, number: usize, case: &mut Option<Case>) -> Result<(), String> {
    if line.len() > LONGEST_LINE || !line.is_ascii() {
        return Err(format!("above {LONGEST_LINE} characters, or not ASCII"));
    }
    match (line.split_at(line.len().min(1)), case) {
        (("" | "#", _), _) | ((">", _), Some(_)) => {}
        (("<", text), Some(case)) => {
            case.input.extend(bytes(text).ok_or("expected characters from 33 to 126 and \\xHH")?)
        }
        (("<" | ">", _), None) => return Err("no case has this line".to_string()),
        (("c", _), Some(_)) => return Err("expected an empty line before the case".to_string()),
        (_, case) => {
            let name = line.strip_prefix("case ");
            let name = name.filter(|name| !name.is_empty() && !name.contains(' '));
            let name = name.ok_or("expected #, case NAME, < or >")?.to_string();
            *case = Some(Case { name, line: number, input: Vec::new() });
        }
    }
    Ok(())
}

/// The bytes of an input line, if it is well formed.
fn bytes(text: &str) -> Option<Vec<u8>> {
    let digit = |byte: &u8| b"0123456789ABCDEF".iter().position(|digit| digit == byte);
    let mut bytes = Vec::new();
    let mut rest = text.as_bytes();
    while !rest.is_empty() {
        let byte;
        (byte, rest) = match rest {
            [b'\\'] => return Some(bytes),
            [b'\\', b'x', high, low, rest @ ..] => ((digit(high)? * 16 + digit(low)?) as u8, rest),
            [byte @ 33..=126, rest @ ..] if *byte != b'\\' => (*byte, rest),
            _ => return None,
        };
        bytes.push(byte);
    }
    bytes.push(10);
    Some(bytes)
}

/// What the program must write, as lines of a sheet: 16 outputs a line, and its last line.
fn answer(case: Option<Case>) -> Result<String, String> {
    let Some(Case { name, line, input }) = case else { return Ok(String::new()) };
    let written = program::run(&input);
    let written = String::from_utf8_lossy(&written);
    let mut words = written.lines().collect::<Vec<&str>>();
    let last = words.pop().unwrap_or("");
    let end = end(&name);
    if !last.starts_with(&end) {
        return Err(format!("line {line}: case {name} ends in {last}, by its name in {end}"));
    }
    let lines = words.chunks(16).map(|words| words.join(" ")).chain([last.to_string()]);
    Ok(lines.map(|line| format!(">{line}\n")).collect())
}

/// What the last line begins with: a case with refused-NN in its name, or order-NN at its
/// beginning, ends in that refusal.
fn end(name: &str) -> String {
    let after = name.split("refused-").skip(1).chain(name.strip_prefix("order-"));
    let mut refusals = after.filter_map(|text| text.get(..2)?.parse::<u32>().ok());
    refusals.next().map_or("E".to_string(), |refusal| format!("R{refusal:02}"))
}
