//! The rules of the records section once more, each asked of each record by itself.

use crate::words::*;

/// What a field must be.
#[derive(Clone, Copy, PartialEq, Eq)]
enum Field {
    Zero,
    Any,
    Small,
    Type,
    Base,
    Constant,
    Hole,
    Term,
    Element,
    Rest,
    Types,
    Terms,
}

use Field::*;

/// What the three fields of each tag must be; None for a tag that is not known.
fn fields(tag: u32) -> Option<[Field; 3]> {
    Some(match tag {
        BT => [Any, Zero, Zero],
        AR => [Type, Type, Zero],
        KO => [Type, Zero, Zero],
        HO => [Types, Base, Zero],
        CE => [Element, Rest, Zero],
        LA => [Term, Zero, Zero],
        CA => [Constant, Terms, Zero],
        VA => [Small, Terms, Zero],
        HA => [Hole, Terms, Zero],
        EQ => [Term, Term, Type],
        _ => return None,
    })
}

fn is_reference(field: Field) -> bool {
    ![Zero, Any, Small].contains(&field)
}

fn values(record: Record) -> [u32; 3] {
    [record.a, record.b, record.c]
}

/// The lowest of the first `count` records that breaks a rule.
pub fn lowest_illegal(words: &[u32], count: usize) -> Option<usize> {
    let uses = uses(words, count);
    (0..count).find(|&number| {
        breaks_field(words, number)
            || breaks_list(words, number)
            || breaks_use(words, number, &uses)
            || breaks_type(words, number)
    })
}

/// For each record, the references to it in order: from which record, in which field.
fn uses(words: &[u32], count: usize) -> Vec<Vec<(usize, usize)>> {
    let mut uses = vec![Vec::new(); count];
    for number in 0..count {
        let record = get(words, number);
        let Some(asked) = fields(record.tag) else { continue };
        for (at, (field, value)) in asked.into_iter().zip(values(record)).enumerate() {
            if let (true, Some(list)) = (is_reference(field), uses.get_mut(value as usize)) {
                list.push((number, at));
            }
        }
    }
    uses
}

fn breaks_field(words: &[u32], number: usize) -> bool {
    let record = get(words, number);
    match fields(record.tag) {
        None => true,
        Some(asked) => {
            let mut both = asked.into_iter().zip(values(record));
            both.any(|(field, value)| !field_holds(words, number, field, value))
        }
    }
}

fn field_holds(words: &[u32], number: usize, field: Field, value: u32) -> bool {
    let below = (value as usize) < number;
    let tag = get(words, value as usize).tag;
    let is = |tags: &[u32]| below && tags.contains(&tag);
    let list_of = |wanted: u32| is(&[CE]) && kinds(words, value).first() == Some(&wanted);
    match field {
        Zero => value == 0,
        Any => true,
        Small => value < MOST_VARIABLES,
        Type => is(&[BT, AR]),
        Base => is(&[BT]),
        Constant => is(&[KO]),
        Hole => is(&[HO]),
        Term => is(&[LA, CA, VA, HA]),
        Element => is(&[BT, AR, LA, CA, VA, HA]),
        Rest => value == NONE || is(&[CE]),
        Types => value == NONE || list_of(0),
        Terms => value == NONE || list_of(1),
    }
}

/// 0 for a type, 1 for a term, 2 for anything else, for each element of a list up to 17.
fn kinds(words: &[u32], first: u32) -> Vec<u32> {
    let mut kinds = Vec::new();
    let mut cell = first;
    while cell != NONE && get(words, cell as usize).tag == CE && kinds.len() < 17 {
        let record = get(words, cell as usize);
        kinds.push(match get(words, record.a as usize).tag {
            BT | AR => 0,
            LA | CA | VA | HA => 1,
            _ => 2,
        });
        cell = record.b;
    }
    kinds
}

/// A cell from which the list is mixed or too long.
fn breaks_list(words: &[u32], number: usize) -> bool {
    let kinds = kinds(words, number as u32);
    kinds.len() > MOST_CELLS || kinds.windows(2).any(|two| two.first() != two.last())
}

/// A reference that is not the first to a record of tag 5 to 9.
fn breaks_use(words: &[u32], number: usize, uses: &[Vec<(usize, usize)>]) -> bool {
    let values = values(get(words, number));
    values.into_iter().any(|value| {
        let once = (CE..=HA).contains(&get(words, value as usize).tag);
        let list = uses.get(value as usize);
        once && list.is_some_and(|list| list.iter().skip(1).any(|&(from, _)| from == number))
    })
}

/// A type equal to an earlier one.
fn breaks_type(words: &[u32], number: usize) -> bool {
    let record = get(words, number);
    [BT, AR].contains(&record.tag) && (0..number).any(|other| get(words, other) == record)
}
