//! A short notation for small problems: statements parted by `;`, each laid as records.
//!
//! `a:i` is a constant, `U[i,i>i]:i` a hole, `\U(v0) = \f(v0) : i>i` an equation, `:i>i` a
//! type, `CE 0 NONE` a single record; anything else is a term that no equation reaches.
//! Types are single letters and arrows, each laid where it is first asked. A `!` before a
//! statement or a term marks its record.

use crate::stored::notation::cursor::Cursor;
use crate::text::record_of_line;
use crate::words::*;

mod cursor;

/// The records of a text, and the record marked in it.
#[derive(Clone, Debug, Default)]
pub struct Written {
    pub records: Vec<Record>,
    pub marked: Option<u32>,
    names: Vec<(String, u32)>,
}

/// The records of a text that is part of this program; a text that can not be read is a mistake in it.
pub fn written(text: &str) -> Written {
    read_text(text).unwrap_or_else(|error| panic!("{text}: {error}"))
}

fn read_text(text: &str) -> Result<Written, String> {
    let mut written = Written::default();
    for statement in text.split(';').map(str::trim).filter(|statement| !statement.is_empty()) {
        let (marked, bare) = match statement.strip_prefix('!') {
            Some(rest) if statement.contains('=') || is_record(rest) => (true, rest.trim()),
            _ => (false, statement),
        };
        written.statement(bare)?;
        if marked {
            written.marked = Some(written.records.len() as u32 - 1);
        }
    }
    Ok(written)
}

fn is_record(statement: &str) -> bool {
    MARKS.iter().any(|mark| statement.trim().starts_with(&format!("{mark} ")))
}

impl Written {
    /// The record a name stands for.
    pub fn number(&self, name: &str) -> Option<u32> {
        self.names.iter().find(|known| known.0 == name).map(|known| known.1)
    }

    fn push(&mut self, tag: u32, a: u32, b: u32, c: u32) -> u32 {
        self.records.push(Record::new(tag, a, b, c));
        self.records.len() as u32 - 1
    }

    fn statement(&mut self, text: &str) -> Result<(), String> {
        let mut cursor = Cursor::new(text);
        if is_record(text) {
            let record = record_of_line(text)?.ok_or("no record")?;
            self.records.push(record);
            return Ok(());
        }
        if let Some((sides, at)) = text.split_once(':').filter(|_| text.contains('=')) {
            return self.equation(sides, at);
        }
        if cursor.take(':') {
            self.of_type(&mut cursor)?;
        } else if text.contains(':') {
            self.head(&mut cursor)?;
        } else {
            self.term(&mut cursor)?;
        }
        cursor.end()
    }

    fn equation(&mut self, sides: &str, at: &str) -> Result<(), String> {
        let at = self.of_type(&mut Cursor::new(at))?;
        let mut cursor = Cursor::new(sides);
        let left = self.term(&mut cursor)?;
        cursor.ask('=')?;
        let right = self.term(&mut cursor)?;
        self.push(EQ, left, right, at);
        cursor.end()
    }

    /// A constant, or a hole with its context in square brackets.
    fn head(&mut self, cursor: &mut Cursor) -> Result<(), String> {
        let name = cursor.word();
        let mut context = Vec::new();
        let is_hole = cursor.take('[');
        while is_hole && !cursor.take(']') {
            context.push(self.of_type(cursor)?);
            cursor.take(',');
        }
        cursor.ask(':')?;
        let of_type = self.of_type(cursor)?;
        let number = if is_hole {
            let list = self.list(&context);
            self.push(HO, list, of_type, 0)
        } else {
            self.push(KO, of_type, 0, 0)
        };
        self.names.push((name, number));
        Ok(())
    }

    fn of_type(&mut self, cursor: &mut Cursor) -> Result<u32, String> {
        let domain = if cursor.take('(') {
            let inner = self.of_type(cursor)?;
            cursor.ask(')')?;
            inner
        } else {
            let letter = cursor.word().bytes().next().ok_or("a type is asked")?;
            self.known_type(Record::new(BT, u32::from(letter), 0, 0))
        };
        if !cursor.take('>') {
            return Ok(domain);
        }
        let result = self.of_type(cursor)?;
        Ok(self.known_type(Record::new(AR, domain, result, 0)))
    }

    fn known_type(&mut self, wanted: Record) -> u32 {
        let known = self.records.iter().position(|&record| record == wanted);
        known.map_or_else(|| self.push(wanted.tag, wanted.a, wanted.b, 0), |number| number as u32)
    }

    fn term(&mut self, cursor: &mut Cursor) -> Result<u32, String> {
        let marked = cursor.take('!');
        let number = if cursor.take('\\') {
            let body = self.term(cursor)?;
            self.push(LA, body, 0, 0)
        } else {
            self.application(cursor)?
        };
        if marked {
            self.marked = Some(number);
        }
        Ok(number)
    }

    fn application(&mut self, cursor: &mut Cursor) -> Result<u32, String> {
        let name = cursor.word();
        let mut arguments = Vec::new();
        if cursor.take('(') {
            while !cursor.take(')') {
                arguments.push(self.term(cursor)?);
                cursor.take(',');
            }
        }
        let list = self.list(&arguments);
        if let Some(variable) = name.strip_prefix('v').and_then(|digits| digits.parse().ok()) {
            return Ok(self.push(VA, variable, list, 0));
        }
        let head = self.number(&name).ok_or(format!("{name} is not known"))?;
        let is_hole = get_tag(&self.records, head) == HO;
        Ok(self.push(if is_hole { HA } else { CA }, head, list, 0))
    }

    fn list(&mut self, elements: &[u32]) -> u32 {
        let cells = elements.iter().rev();
        cells.fold(NONE, |rest, &element| self.push(CE, element, rest, 0))
    }
}

fn get_tag(records: &[Record], number: u32) -> u32 {
    records.get(number as usize).map_or(0, |record| record.tag)
}
