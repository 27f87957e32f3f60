//! Several faults at once: which answer comes first, and which place is the lowest.

use super::Check;

const HEADS: &str = "a:i; f:i>i; b:o; V[i]:i; W[i,i]:i;";

/// The answer and the text; the mark is the place.
const TEXTS: [(&str, u32, &str); 18] = [
    ("three equations, the first ill-typed", 6, "!a = b : i; a = a : i; b = a : i"),
    ("three equations, the second ill-typed", 6, "a = a : i; !a = b : i; b = a : i"),
    ("three equations, the third ill-typed", 6, "a = a : i; a = f(a) : i; !b = a : i"),
    ("both sides ill-typed", 6, "a = a : i; !b = b : i"),
    ("ill-typed after no pattern", 6, "\\W(v0, v0) = \\a : i>i; !a = b : i"),
    ("ill-typed before no pattern", 6, "!a = b : i; \\W(v0, v0) = \\a : i>i"),
    ("ill-typed inside an occurrence that is no pattern", 6, "!\\W(f(b), v0) = \\a : i>i"),
    ("ill-typed and no pattern on two sides", 6, "!\\W(v0, v0) = \\b : i>i"),
    ("a broken record after ill-typed equations", 5, "a = b : i; !BT 105; b = a : i"),
    ("a broken record before ill-typed equations", 5, "!BT 105; a = b : i"),
    ("a broken record after no pattern", 5, "\\W(v0, v0) = \\a : i>i; !KO 900"),
    ("a broken record no equation reaches", 5, "a = a : i; !VA 4096 NONE"),
    ("two broken records", 5, "!VA 4096 NONE; HO NONE NONE"),
    ("two broken records of other rules", 5, "!AR 0 0; LA 900"),
    ("an unused field and a later second use", 5, "!KO 0 1; VA 0 NONE; LA 12; LA 12"),
    ("a second use and a later unused field", 5, "VA 0 NONE; LA 11; !LA 11; KO 0 1"),
    ("two equations that fail only when solved", 0, "a = f(a) : i; \\V(v0) = \\f(V(v0)) : i>i"),
    ("two whole equations", 0, "\\V(v0) = \\v0 : i>i; \\\\W(v0, v1) = \\\\v0 : i>i>i"),
];

pub fn all() -> Vec<Check> {
    let entry = |(name, answer, text): (&str, u32, &str)| {
        Check::of_text(format!("order: {name}"), &format!("{HEADS}{text}"), answer)
    };
    TEXTS.map(entry).to_vec()
}
