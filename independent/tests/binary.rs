//! The binary: exit statuses and what goes to which stream.

use std::io::Write;
use std::process::{Command, Output, Stdio};

fn independent(arguments: &[&str], input: &[u8]) -> Output {
    let mut child = Command::new(env!("CARGO_BIN_EXE_independent"))
        .args(arguments)
        .stdin(Stdio::piped())
        .stdout(Stdio::piped())
        .stderr(Stdio::piped())
        .spawn()
        .expect("start");
    child.stdin.take().expect("input").write_all(input).expect("write");
    child.wait_with_output().expect("end")
}

#[test]
fn asm_then_run_prints_the_answer() {
    let path = format!("{}/../examples/file.txt", env!("CARGO_MANIFEST_DIR"));
    let file = independent(&["asm", &path], b"");
    assert_eq!((file.status.code(), file.stdout.len()), (Some(0), 14 * 14));
    let run = independent(&["run"], &file.stdout);
    assert_eq!((run.status.code(), run.stdout), (Some(0), b"0 0 17\nh4 = c2(v0)\n".to_vec()));
    let text = independent(&["disasm"], &file.stdout);
    assert!(text.stdout.starts_with(b"BT\nAR\nKO 1\nCE 0 NONE\nHO 3\n"));
}

#[test]
fn errors_go_to_standard_error_with_status_2() {
    let cases: [(&[&str], &[u8], &str); 6] = [
        (&["asm"], b"BT 0\nXY\n", "independent: line 2: unknown mark XY\n"),
        (&["disasm"], b"BT", "independent: record 0: 2 bytes where 14 are asked\n"),
        (&["words", "x", "1"], b"", "independent: x is not a number that fits\n"),
        (&["nothing"], b"", "independent: no such command\nusage:"),
        (&[], b"", "independent: no such command\nusage:"),
        (&["asm", "/no/such/file"], b"", "independent: /no/such/file: "),
    ];
    for (arguments, input, start) in cases {
        let output = independent(arguments, input);
        assert_eq!((output.status.code(), output.stdout), (Some(2), Vec::new()), "{arguments:?}");
        let said = String::from_utf8_lossy(&output.stderr).into_owned();
        assert!(said.starts_with(start), "{arguments:?} said {said}");
    }
}

#[test]
fn check_seeds_succeeds_without_faults() {
    let output = independent(&["check-seeds", "3", "50", "--small"], b"");
    assert_eq!(output.status.code(), Some(0));
    assert!(output.stdout.ends_with(b"faults: 0\n"));
}

#[test]
fn writes_prints_a_block_for_each_table() {
    let output = independent(&["writes", "3", "20", "--small"], b"");
    assert_eq!(output.status.code(), Some(0));
    assert!(output.stdout.starts_with(b"problem 0 ") && output.stdout.ends_with(b"\nend\n"));
}
