//! The text form: there and back, and the error lines.

mod common;
use common::*;
use independent::generate::{some_made, Scale};
use independent::random::Random;
use independent::read::encode;
use independent::text::{assemble, disassemble};

#[test]
fn lines_comments_and_missing_fields() {
    let bytes = file("# only a comment\n\n  CE 0 NONE # a cell\nBT\r\nEQ 1 2 3\n");
    assert_eq!(bytes.len(), 42);
    assert_eq!(bytes[..14], [b'C', b'E', 0, 0, 0, 0, 255, 255, 255, 255, 0, 0, 0, 0]);
    assert_eq!(bytes[14..28], [b'B', b'T', 0, 0, 0, 0, 0, 0, 0, 0, 0, 0, 0, 0]);
    assert_eq!(bytes[28..], [b'E', b'Q', 1, 0, 0, 0, 2, 0, 0, 0, 3, 0, 0, 0]);
}

#[test]
fn errors_name_the_line_in_words() {
    let error = |text: &str| assemble(text).unwrap_err();
    assert_eq!(error("BT 0\n\n# x\n\n\n\nXY 1\n"), "line 7: unknown mark XY");
    assert_eq!(error("BT 0\nAR 0 0\nKO 4294967296\n"), "line 3: 4294967296 is too large");
    assert_eq!(error("BT x\n"), "line 1: x is neither a number nor NONE");
    assert_eq!(error("BT -1\n"), "line 1: -1 is neither a number nor NONE");
    assert_eq!(error("EQ 1 2 3 4\n"), "line 1: 4 fields where at most 3 are allowed");
    assert_eq!(error("bt 0\n"), "line 1: unknown mark bt");
}

#[test]
fn shortest_text_of_a_file() {
    let bytes = file("BT 0 0 0\nBT 4294967295\nCE 0 NONE 0\nEQ 0 0 7\n");
    assert_eq!(disassemble(&bytes).unwrap(), "BT\nBT NONE\nCE 0 NONE\nEQ 0 0 7\n");
}

#[test]
fn disassembly_errors_name_the_record() {
    assert_eq!(
        disassemble(b"BT\0\0\0\0\0\0\0\0\0\0\0\0XY").unwrap_err(),
        "record 1: 2 bytes where 14 are asked"
    );
    assert_eq!(disassemble(b"XY\0\0\0\0\0\0\0\0\0\0\0\0").unwrap_err(), "record 0: unknown mark XY");
    assert_eq!(
        disassemble(b"\xff\n\0\0\0\0\0\0\0\0\0\0\0\0").unwrap_err(),
        "record 0: unknown mark \\xff\\n"
    );
}

#[test]
fn there_and_back_is_the_identity() {
    for seed in 0..200 {
        let records = some_made(&mut Random::new(seed), Scale::Usual).records;
        let bytes: Vec<u8> = records.into_iter().filter_map(encode).flatten().collect();
        let text = disassemble(&bytes).unwrap();
        assert_eq!(assemble(&text).unwrap(), bytes, "seed {seed}");
    }
}

#[test]
fn examples_start_with_a_comment_and_survive_the_round() {
    for name in ["p01", "p13", "q2", "file"] {
        let bytes = example(name);
        assert_eq!(assemble(&disassemble(&bytes).unwrap()).unwrap(), bytes, "{name}");
    }
}
