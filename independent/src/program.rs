//! The program: what it prints for a problem file on standard input.

use crate::machine::show::show;
use crate::machine::solve::solve;
use crate::read::read;
use crate::reply::Reply;
use crate::words::*;

/// What the program prints for this standard input, byte for byte.
pub fn program(file: &[u8]) -> Vec<u8> {
    let mut table = vec![0; 4 * MOST_RECORDS];
    let mut solutions = vec![NONE; MOST_RECORDS];
    let mut queue = vec![0; 2 * MOST_PAIRS];
    let reading = read(file, &mut table);
    if reading.answer != 0 {
        return reply_line(reading).into_bytes();
    }
    let n = reading.used as usize;
    let solving = solve(&mut table, n, &mut solutions, &mut queue);
    let mut printed = reply_line(solving);
    if solving.answer == 0 {
        let mut output = vec![0; 4 * MOST_RECORDS];
        for hole in (0..n).filter(|&number| get(&table, number).tag == HO).collect::<Vec<_>>() {
            let reply = show(&mut table, n, &mut solutions, &mut queue, hole, &mut output);
            let answer = if reply.answer == 0 { term(&output, reply.used) } else { "?".to_string() };
            printed.push_str(&format!("h{hole} = {answer}\n"));
        }
    }
    printed.into_bytes()
}

fn reply_line(reply: Reply) -> String {
    format!("{} {} {}\n", reply.answer, reply.place, reply.used)
}

/// What is still to be printed.
enum Piece {
    Text(&'static str),
    Term(u32),
}

/// The term in the first `used` output records: its head record is the last of them.
fn term(output: &[u32], used: u32) -> String {
    let mut text = String::new();
    let mut pieces = vec![Piece::Term(used.saturating_sub(1))];
    while let Some(piece) = pieces.pop() {
        match piece {
            Piece::Text(part) => text.push_str(part),
            Piece::Term(number) => open(output, number, &mut text, &mut pieces),
        }
    }
    text
}

/// Prints a term's head and lays its children on the stack, the first on top.
fn open(output: &[u32], number: u32, text: &mut String, pieces: &mut Vec<Piece>) {
    let record = get(output, number as usize);
    let letter = match record.tag {
        LA => {
            text.push('\\');
            pieces.push(Piece::Term(record.a));
            return;
        }
        CA => 'c',
        VA => 'v',
        _ => 'h',
    };
    text.push_str(&format!("{letter}{}", record.a));
    let arguments = elements(output, record.b);
    if arguments.is_empty() {
        return;
    }
    text.push('(');
    pieces.push(Piece::Text(")"));
    for (position, argument) in arguments.into_iter().enumerate().rev() {
        pieces.push(Piece::Term(argument));
        if position > 0 {
            pieces.push(Piece::Text(","));
        }
    }
}
