//! The stored checks: each entry is answered as its name and its making say.

use independent::check;
use independent::selfcheck::refusal::expected_refusal;
use independent::stored::checks::checks;
use std::collections::BTreeSet;

#[test]
fn every_entry_is_answered_as_it_was_made() {
    for entry in checks() {
        let reply = check(&entry.words, entry.n as usize);
        assert_eq!((reply.answer, reply.place), (entry.answer, entry.place), "{}", entry.name);
    }
}

#[test]
fn the_second_reading_of_the_rules_says_the_same() {
    for entry in checks() {
        let room = entry.words.len() / 4;
        let reply = expected_refusal(&entry.words, entry.n as usize, room, None);
        let found = reply.map_or((0, 0), |reply| (reply.answer, reply.place));
        assert_eq!(found, (entry.answer, entry.place), "{}", entry.name);
    }
}

#[test]
fn names_are_different_and_every_answer_is_met() {
    let list = checks();
    let names: BTreeSet<&str> = list.iter().map(|entry| entry.name.as_str()).collect();
    assert_eq!(names.len(), list.len());
    assert!(list.len() >= 400, "{} entries", list.len());
    for (answer, least) in [(0, 100), (4, 15), (5, 300), (6, 80), (7, 50)] {
        let count = list.iter().filter(|entry| entry.answer == answer).count();
        assert!(count >= least, "answer {answer} is met {count} times");
    }
}

#[test]
fn each_part_of_the_rules_has_its_entries() {
    let list = checks();
    let parts = [
        ("fields: tag", 24),
        ("fields: unused field", 48),
        ("fields: variable number", 18),
        ("references:", 17 * 18),
        ("uses:", 88),
        ("types:", 30),
        ("lists: from the end", 12),
        ("lists: 1", 26),
        ("typing: constants", 27),
        ("typing: lambdas", 24),
        ("typing: variables", 32),
        ("holes:", 49),
        ("patterns:", 34),
        ("many:", 20),
        ("unreached:", 20),
        ("order:", 18),
        ("sizes:", 40),
    ];
    for (part, least) in parts {
        let count = list.iter().filter(|entry| entry.name.starts_with(part)).count();
        assert!(count >= least, "{part} has {count} entries");
    }
}

#[test]
fn slices_are_small() {
    for entry in checks() {
        assert!(entry.words.len() <= 420, "{} has {} words", entry.name, entry.words.len());
    }
}
