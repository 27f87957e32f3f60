//! Writers with one small fault each: generated tables and stored ones notice every one.

use independent::generate::writes::write_problem;
use independent::generate::Scale;
use independent::read::{MOST_BYTES, RECORD_BYTES};
use independent::selfcheck::writes::{check_writer, Writer};
use independent::stored::replays::write_replays;
use independent::{write, Reply};

/// The first of so many tables on which the self-check finds a fault.
fn noticed(writer: Writer, count: u64) -> Option<u64> {
    (0..count).find(|&index| !check_writer(writer, &write_problem(41, index, Scale::Usual)).faults.is_empty())
}

/// Whether a stored table is answered or written otherwise than it should be.
fn noticed_stored(writer: Writer) -> bool {
    write_replays().iter().any(|table| table.left(writer) != table.left(write))
}

/// Writes as it should, then changes something if the answer is 0.
fn then(table: &[u32], n: usize, file: &mut [u8], change: impl Fn(&mut [u8])) -> Reply {
    let reply = write(table, n, file);
    if reply.answer == 0 {
        change(file);
    }
    reply
}

#[test]
fn the_writer_itself_has_no_fault() {
    assert_eq!(noticed(write, 100), None);
}

#[test]
fn wrong_bytes_are_noticed() {
    let writers: [(&str, Writer); 6] = [
        ("a field big-endian", |table, n, file| {
            then(table, n, file, |file| file.chunks_mut(14).take(n).for_each(|bytes| bytes[2..6].reverse()))
        }),
        ("the mark of the next tag", |table, n, file| {
            then(table, n, file, |file| {
                let records = file.chunks_mut(RECORD_BYTES).take(n);
                records.filter(|bytes| bytes[..2] == *b"CA").for_each(|bytes| bytes[0] = b'V');
            })
        }),
        ("one record too few", |table, n, file| {
            let last = file.get(RECORD_BYTES * n.saturating_sub(1)..).unwrap_or_default().to_vec();
            then(table, n, file, |file| {
                let from = file.len() - last.len();
                file[from..].copy_from_slice(&last);
            })
        }),
        ("the byte past the file", |table, n, file| {
            then(table, n, file, |file| file.iter_mut().skip(14 * n).take(1).for_each(|byte| *byte = 0))
        }),
        ("all bytes past the file", |table, n, file| {
            then(table, n, file, |file| file.iter_mut().skip(14 * n).for_each(|byte| *byte = 0))
        }),
        ("nothing", |table, n, file| write(table, n, &mut file.to_vec())),
    ];
    for (name, writer) in writers {
        assert!(noticed(writer, 200).is_some() && noticed_stored(writer), "{name}");
    }
}

#[test]
fn wrong_replies_are_noticed() {
    let writers: [(&str, Writer); 7] = [
        ("always 4", |_, _, _| Reply::new(4, 0, 0)),
        ("used one too many", |table, n, file| {
            let reply = write(table, n, file);
            Reply { used: reply.used + u32::from(reply.answer == 0), ..reply }
        }),
        ("used on refusal", |table, n, file| Reply { used: n as u32, ..write(table, n, file) }),
        ("14 before 5", |table, n, file| match write(table, n, file) {
            Reply { answer: 5, .. } if file.len() < RECORD_BYTES * n => Reply::new(14, 0, 0),
            reply => reply,
        }),
        ("a place with 14", |table, n, file| match write(table, n, file) {
            Reply { answer: 14, .. } => Reply::new(14, (file.len() / RECORD_BYTES) as u32, 0),
            reply => reply,
        }),
        ("2,048 records refused", |table, n, file| match n < MOST_BYTES / RECORD_BYTES {
            true => write(table, n, file),
            false => Reply::new(4, 0, 0),
        }),
        ("all records of the table judged", |table, n, file| {
            let all = write(table, (table.len() / 4).min(2048), &mut [0; MOST_BYTES]);
            if all.answer == 5 && n <= table.len() / 4 {
                all
            } else {
                write(table, n, file)
            }
        }),
    ];
    for (name, writer) in writers {
        assert!(noticed(writer, 600).is_some() && noticed_stored(writer), "{name}");
    }
}
