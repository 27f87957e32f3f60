//! The text of a shown answer, in the form that the program prints.

use crate::NONE;

/// What is still to be written.
enum Piece {
    Term(u32),
    Arguments(u32),
    Sign(char),
}

/// The text of the term whose head is the last of the output's first `used` records; None if that is no term.
pub fn text(output: &[u32], used: usize) -> Option<String> {
    let (records, _) = output.as_chunks::<4>();
    let records = records.get(..used)?;
    let mut written = String::new();
    let mut pieces = vec![Piece::Term(used.checked_sub(1)?.try_into().ok()?)];
    let mut left = records.len();
    while let Some(piece) = pieces.pop() {
        match piece {
            Piece::Sign(sign) => written.push(sign),
            Piece::Term(number) => {
                left = left.checked_sub(1)?;
                term(records, number, &mut pieces, &mut written)?;
            }
            Piece::Arguments(cell) => {
                left = left.checked_sub(1)?;
                let &[5, element, rest, _] = records.get(cell as usize)? else { return None };
                if rest == NONE {
                    pieces.push(Piece::Sign(')'));
                } else {
                    pieces.extend([Piece::Arguments(rest), Piece::Sign(',')]);
                }
                pieces.push(Piece::Term(element));
            }
        }
    }
    Some(written)
}

/// Writes a term's head and lays the rest on the stack, the first on top.
fn term(records: &[[u32; 4]], number: u32, pieces: &mut Vec<Piece>, written: &mut String) -> Option<()> {
    let &[tag, a, b, _] = records.get(number as usize)?;
    let sign = match tag {
        6 => {
            written.push('\\');
            pieces.push(Piece::Term(a));
            return Some(());
        }
        7 => 'c',
        8 => 'v',
        9 => 'h',
        _ => return None,
    };
    written.push(sign);
    written.push_str(&a.to_string());
    if b != NONE {
        written.push('(');
        pieces.push(Piece::Arguments(b));
    }
    Some(())
}
