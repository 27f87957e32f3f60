//! The plain text form of problem files: one record a line, as people write them.

use crate::read::{decode, encode, RECORD_BYTES};
use crate::words::*;

/// From text to a file's bytes; the error names the line.
pub fn assemble(text: &str) -> Result<Vec<u8>, String> {
    let mut file = Vec::new();
    for (index, line) in text.lines().enumerate() {
        let at_line = |error: String| format!("line {}: {error}", index + 1);
        if let Some(record) = record_of_line(line).map_err(at_line)? {
            file.extend(encode(record).unwrap_or_default());
        }
    }
    Ok(file)
}

/// The record of one line, None for a blank line; `#` starts a comment.
pub fn record_of_line(line: &str) -> Result<Option<Record>, String> {
    let content = line.split('#').next().unwrap_or("");
    let mut parts = content.split_whitespace();
    let Some(mark) = parts.next() else {
        return Ok(None);
    };
    let known = MARKS.iter().position(|known| *known == mark);
    let tag = known.ok_or_else(|| format!("unknown mark {mark}"))? as u32 + 1;
    let fields: Vec<u32> = parts.map(field_of_word).collect::<Result<_, _>>()?;
    if fields.len() > 3 {
        return Err(format!("{} fields where at most 3 are allowed", fields.len()));
    }
    let field = |k: usize| fields.get(k).copied().unwrap_or(0);
    Ok(Some(Record::new(tag, field(0), field(1), field(2))))
}

fn field_of_word(word: &str) -> Result<u32, String> {
    if word == "NONE" {
        return Ok(NONE);
    }
    if !word.bytes().all(|byte| byte.is_ascii_digit()) {
        return Err(format!("{word} is neither a number nor NONE"));
    }
    word.parse().map_err(|_| format!("{word} is too large"))
}

/// From a file's bytes to the shortest text; the error names the record.
pub fn disassemble(file: &[u8]) -> Result<String, String> {
    let mut text = String::new();
    for (number, bytes) in file.chunks(RECORD_BYTES).enumerate() {
        if bytes.len() < RECORD_BYTES {
            let found = bytes.len();
            return Err(format!("record {number}: {found} bytes where {RECORD_BYTES} are asked"));
        }
        let record = decode(bytes).ok_or_else(|| {
            let mark = bytes.get(..2).unwrap_or_default().escape_ascii();
            format!("record {number}: unknown mark {mark}")
        })?;
        text.push_str(&line_of_record(record));
    }
    Ok(text)
}

fn line_of_record(record: Record) -> String {
    let mut fields = vec![record.a, record.b, record.c];
    while fields.last() == Some(&0) {
        fields.pop();
    }
    let mark = MARKS.get((record.tag as usize).wrapping_sub(1)).copied().unwrap_or("");
    let mut line = mark.to_string();
    for field in fields {
        line.push(' ');
        line.push_str(&if field == NONE { "NONE".to_string() } else { field.to_string() });
    }
    line.push('\n');
    line
}
