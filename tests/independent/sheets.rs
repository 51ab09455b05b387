//! Sheets of host calls: the calls of a file are read, and the file is written anew with what they
//! must answer. So a person who adds a call writes its head and its buffers, and nothing else.

use crate::calls::{self, Left};
use crate::host::{self, Call, Number, ROWS};
use std::iter::Peekable;
use std::vec::IntoIter;

/// The text of a sheet with the answers of the implementation, and how many calls it has.
pub fn anew(text: &str) -> Result<(String, usize), String> {
    let (mut made, mut calls, mut left) = (String::new(), 0, Left::new());
    let mut lines = joined(text).into_iter().peekable();
    while let Some((number, line)) = lines.next() {
        if line.is_empty() || line.starts_with('#') {
            made += &format!("{line}\n");
            continue;
        }
        let call =
            read(&line, &mut lines, &left).map_err(|what| format!("line {number}: {what}"))?;
        let answer = host::answer(&call);
        made += &calls::block(&call, &answer, &left);
        let names = call.row.buffers.iter().map(|(name, _)| *name);
        left.extend(names.zip(answer.buffers));
        calls += 1;
    }
    Ok((made, calls))
}

type Lines = Peekable<IntoIter<(usize, String)>>;

/// The lines with their numbers; one that begins with a space goes on with the one before.
pub fn joined(text: &str) -> Vec<(usize, String)> {
    let mut lines: Vec<(usize, String)> = Vec::new();
    for (place, line) in text.lines().enumerate() {
        match lines.last_mut() {
            Some((_, last)) if line.starts_with(' ') => *last += line,
            _ => lines.push((place + 1, line.to_string())),
        }
    }
    lines
}

/// A call by its head and the fields of its buffers; fields of an answer are passed over.
fn read(head: &str, lines: &mut Lines, left: &Left) -> Result<Call, String> {
    let mut words = head.split(' ');
    let name = words.next().unwrap_or("");
    let row = ROWS.iter().find(|row| row.name == name).ok_or(format!("no call {name}"))?;
    let number = |form: &Number, word: Option<&str>| {
        let radix = if matches!(form, Number::Float) { 16 } else { 10 };
        u64::from_str_radix(word?, radix).ok()
    };
    let numbers = row.numbers.iter().map(|form| number(form, words.next()));
    let numbers = numbers.collect::<Option<Vec<u64>>>().ok_or("a number is missing")?;
    if words.next().is_some() {
        return Err("more numbers than the call has".to_string());
    }
    let mut buffers = Vec::new();
    for (name, role) in row.buffers {
        let (_, line) = lines.next().unwrap_or_default();
        let text = line.strip_prefix(name).and_then(|text| text.strip_prefix(' '));
        let bytes = match text {
            Some("last") if host::may_be_last(name, *role) => left.get(name).cloned(),
            Some(text) => bytes(text),
            None => None,
        };
        buffers.push(bytes.ok_or(format!("the field {name} is missing, or cannot be read"))?);
    }
    let answers = |line: &str| {
        let field = line.split(' ').next().unwrap_or("");
        field == "result" || field.ends_with("-after")
    };
    while lines.next_if(|(_, line)| answers(line)).is_some() {}
    Ok(Call { row, numbers, buffers })
}

/// Parts of pairs of digits, each perhaps with * and how often it stands there; - for no bytes.
fn bytes(text: &str) -> Option<Vec<u8>> {
    let mut bytes = Vec::new();
    for part in text.split(' ').filter(|part| *part != "-") {
        let (digits, times) = part.split_once('*').unwrap_or((part, "1"));
        let pairs = digits.as_bytes().chunks(2).map(|pair| std::str::from_utf8(pair).ok());
        let unit =
            pairs.map(|pair| u8::from_str_radix(pair?, 16).ok()).collect::<Option<Vec<u8>>>();
        bytes.extend(unit?.repeat(times.parse::<usize>().ok()?));
    }
    Some(bytes)
}
