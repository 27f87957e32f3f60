//! The stored streams: read back number by number they are the lists, and the lines follow their order.

use independent::check;
use independent::stored::checks::checks;
use independent::stored::replays::{replays, Stored};
use independent::stored::stream::{write_checks_in, write_checks_out, write_replay_in, write_replay_out};
use std::io::{self, Write};

/// A stream that is read from its start.
struct Stream {
    bytes: Vec<u8>,
    at: usize,
}

impl Stream {
    fn of(write: fn(&mut dyn Write) -> io::Result<()>) -> Stream {
        let mut bytes = Vec::new();
        write(&mut bytes).unwrap();
        Stream { bytes, at: 0 }
    }

    fn bytes(&mut self, count: usize) -> Vec<u8> {
        self.at += count;
        self.bytes[self.at - count..self.at].to_vec()
    }

    fn words(&mut self, count: u32) -> Vec<u32> {
        let bytes = self.bytes(4 * count as usize);
        bytes.chunks(4).map(|four| u32::from_le_bytes(four.try_into().unwrap())).collect()
    }

    fn ended(&self) -> bool {
        self.at == self.bytes.len()
    }
}

#[test]
fn the_stream_of_checks_is_the_list() {
    let mut stream = Stream::of(write_checks_in);
    for entry in checks() {
        let start = stream.words(2);
        assert_eq!(start[0], entry.n);
        assert_eq!(stream.words(start[1]), entry.words, "{}", entry.name);
    }
    assert!(stream.ended());
}

#[test]
fn the_lines_of_checks_are_answers_and_places() {
    let out = String::from_utf8(Stream::of(write_checks_out).bytes).unwrap();
    let list = checks();
    assert_eq!(out.lines().count(), list.len());
    for (line, entry) in out.lines().zip(list) {
        let reply = check(&entry.words, entry.n as usize);
        assert_eq!(line, format!("{} {}", reply.answer, reply.place), "{}", entry.name);
    }
}

#[test]
fn the_stream_of_replays_is_the_list() {
    let mut stream = Stream::of(write_replay_in);
    for entry in replays() {
        match entry {
            Stored::Problem(p) => {
                let start = stream.words(7);
                assert_eq!(start[..3], [1, p.n, p.hole], "{}", p.name);
                for (slice, &count) in [p.table, p.solutions, p.queue, p.output].iter().zip(&start[3..]) {
                    assert_eq!(&stream.words(count), slice, "{}", p.name);
                }
            }
            Stored::File(f) => {
                let start = stream.words(3);
                assert_eq!((start[0], stream.bytes(start[1] as usize)), (2, f.file), "{}", f.name);
                let fill = (4 - start[1] as usize % 4) % 4;
                assert_eq!(stream.bytes(fill), vec![0; fill]);
                assert_eq!(stream.words(start[2]), f.table, "{}", f.name);
            }
            Stored::Table(t) => {
                let start = stream.words(4);
                assert_eq!((start[0], start[1], start[3] as usize), (3, t.n, t.bytes), "{}", t.name);
                assert_eq!(stream.words(start[2]), t.table, "{}", t.name);
                assert_eq!(stream.words(start[3].div_ceil(4)), t.words, "{}", t.name);
            }
        }
    }
    assert!(stream.ended());
}

#[test]
fn the_lines_of_replays_have_their_names_in_order() {
    let out = String::from_utf8(Stream::of(write_replay_out).bytes).unwrap();
    assert!(out.len() < 700_000, "{} bytes", out.len());
    let mut lines = out.lines();
    let of_problem =
        ["solve", "table", "solutions", "queue", "show", "table", "solutions", "queue", "output"];
    for entry in replays() {
        let names = match entry {
            Stored::Problem(_) => &of_problem[..],
            Stored::File(_) => &["read", "table"],
            Stored::Table(_) => &["write", "file"],
        };
        for name in names {
            let line = lines.next().unwrap();
            assert_eq!(line.split(' ').next(), Some(*name));
            assert!(line.split(' ').skip(1).all(|word| word.parse::<u32>().is_ok()), "{name}");
        }
    }
    assert_eq!(lines.next(), None);
}
