//! Equal type records: next to each other, far apart, among many.

use super::Check;
use crate::stored::notation::written;
use crate::words::*;

/// Answer 5 at the mark, or 0 without a mark.
const TEXTS: [(&str, &str); 19] = [
    ("two base types", "BT 0; BT 1"),
    ("base numbers 0 and NONE", "BT 0; BT 4294967295"),
    ("equal base types", "BT 0; !BT 0"),
    ("equal base types with number NONE", "BT NONE; !BT NONE"),
    ("equal base types with others between", "BT 5; BT 6; BT 7; !BT 5"),
    ("equal to the one before", "BT 5; BT 6; BT 7; !BT 7"),
    ("three equal base types", "BT 0; !BT 0; BT 0"),
    ("two pairs crossed", "BT 0; BT 1; !BT 0; BT 1"),
    ("two pairs nested", "BT 0; BT 1; !BT 1; BT 0"),
    ("equal base types that nothing refers to", "BT 0; KO 0; BT 3; CA 1 NONE; !BT 3"),
    ("equal arrows", "BT 0; AR 0 0; !AR 0 0"),
    ("equal arrows with others between", "BT 0; AR 0 0; AR 0 1; AR 1 0; !AR 0 1"),
    ("arrows turned round", "BT 0; AR 0 0; AR 0 1; AR 1 0; AR 1 1"),
    ("arrows with equal domains", "BT 0; BT 1; AR 0 0; AR 0 1"),
    ("arrows with equal results", "BT 0; BT 1; AR 0 0; AR 1 0"),
    ("base number like an arrow's domain", "BT 1; BT 0; AR 1 0; AR 0 1; AR 0 0; AR 1 1"),
    ("equal arrows between terms", "BT 0; AR 0 0; KO 0; CA 2 NONE; !AR 0 0; LA 3"),
    ("an arrow equal only through equal base types", "BT 0; !BT 0; AR 0 0; AR 1 1"),
    ("records that are equal but no types", "BT 0; KO 0; KO 0; HO NONE 0; HO NONE 0; CA 1 NONE; CA 1 NONE"),
];

/// So many base types, all different but for one that is like an earlier one.
fn base_types(count: u32, copy: Option<(u32, u32)>) -> Vec<Record> {
    let number = |at: u32| match copy {
        Some((from, to)) if to == at => from,
        _ => at,
    };
    (0..count).map(|at| Record::new(BT, 1000 + number(at), 0, 0)).collect()
}

/// Two base types and arrows from them to each arrow before, with one arrow like an earlier one.
fn arrows(count: u32, copy: Option<(u32, u32)>) -> Vec<Record> {
    let mut records = base_types(2, None);
    for at in 2..count {
        let like = copy.filter(|&(_, to)| to == at).and_then(|(from, _)| records.get(from as usize).copied());
        records.push(like.unwrap_or(Record::new(AR, at % 2, at - 1, 0)));
    }
    records
}

pub fn all() -> Vec<Check> {
    let mut list = Vec::new();
    for (name, text) in TEXTS {
        let answer = if written(text).marked.is_some() { 5 } else { 0 };
        list.push(Check::of_text(format!("types: {name}"), text, answer));
    }
    list.push(Check::new("types: forty base types", &base_types(40, None), 0, 0));
    list.push(Check::new("types: forty arrows", &arrows(40, None), 0, 0));
    for (from, to) in [(0, 39), (15, 16), (16, 17), (17, 18), (31, 32), (20, 39), (38, 39), (33, 34)] {
        let name = format!("types: of forty base types {to} is like {from}");
        list.push(Check::new(name, &base_types(40, Some((from, to))), 5, to));
        if from > 1 {
            let name = format!("types: of forty types the arrow {to} is like {from}");
            list.push(Check::new(name, &arrows(40, Some((from, to))), 5, to));
        }
    }
    list
}
