//! Kind l: lists of 15 to 18 cells, of types and of terms, reached and not.

use crate::generate::sketch::{Equation, Hole, Sketch};
use crate::random::Random;
use crate::tree::{Head, Tree};
use crate::words::*;

/// How many cells the lists have.
const CELLS: [usize; 6] = [15, 16, 16, 17, 17, 18];

/// A few records with one long list that no equation reaches.
pub fn long_list(random: &mut Random) -> Vec<Record> {
    let cells = random.pick(&CELLS).unwrap_or(16);
    let mut records = vec![Record::new(BT, 0, 0, 0), Record::new(KO, 0, 0, 0), Record::new(HO, NONE, 0, 0)];
    let of_terms = random.chance(50);
    let between = random.chance(50);
    let mut elements = Vec::new();
    let mut rest = NONE;
    for _ in 0..cells {
        elements.push(if of_terms { records.len() as u32 } else { 0 });
        if of_terms {
            records.push(Record::new(VA, 0, NONE, 0));
        }
        if between {
            records.push(Record::new(CE, elements.pop().unwrap_or(0), rest, 0));
            rest = records.len() as u32 - 1;
        }
    }
    for element in elements {
        records.push(Record::new(CE, element, rest, 0));
        rest = records.len() as u32 - 1;
    }
    match (of_terms, random.below(4)) {
        (_, 0) => {}
        (false, _) => records.push(Record::new(HO, rest, 0, 0)),
        (true, 1) => records.push(Record::new(CA, 1, rest, 0)),
        (true, 2) => records.push(Record::new(HA, 2, rest, 0)),
        (true, _) => records.push(Record::new(VA, 1, rest, 0)),
    }
    records
}

/// One equation over so many variables or arguments; at most 16 keep the rules.
pub fn wide(random: &mut Random) -> Sketch {
    let cells = random.pick(&CELLS).unwrap_or(16);
    let mut sketch = Sketch::start(random);
    let base = sketch.some_base(random);
    sketch.constants.push(base);
    let plain = Tree::Apply(Head::Constant(sketch.constants.len() as u32 - 1), Vec::new());
    let (left, right, binders) = match random.below(3) {
        0 => applied(&mut sketch, base, cells, &plain),
        1 => narrowed(&mut sketch, random, base, cells),
        _ => {
            let occurrence = over(&mut sketch, random, base, cells, cells);
            (occurrence, plain, cells)
        }
    };
    let at = (0..binders).fold(base, |result, _| sketch.arrow(base, result));
    let under = |tree: Tree| (0..binders).fold(tree, |body, _| Tree::lambda(body));
    let (left, right) = if random.chance(50) { (left, right) } else { (right, left) };
    sketch.equations.push(Equation { left: under(left), right: under(right), at });
    sketch
}

/// A constant of that many arguments on both sides.
fn applied(sketch: &mut Sketch, base: usize, cells: usize, plain: &Tree) -> (Tree, Tree, usize) {
    let of_type = (0..cells).fold(base, |result, _| sketch.arrow(base, result));
    sketch.constants.push(of_type);
    let head = Head::Constant(sketch.constants.len() as u32 - 1);
    let side = Tree::Apply(head, vec![plain.clone(); cells]);
    (side.clone(), side, 0)
}

/// A hole over all the variables against one over fewer, or against itself in another order.
fn narrowed(sketch: &mut Sketch, random: &mut Random, base: usize, cells: usize) -> (Tree, Tree, usize) {
    let left = over(sketch, random, base, cells, cells);
    if random.chance(50) {
        let mut numbers: Vec<u32> = (0..cells as u32).collect();
        random.shuffle(&mut numbers);
        let same = sketch.holes.len() as u32 - 1;
        return (left, Tree::occurrence(same, &numbers), cells);
    }
    let fewer = random.below(cells);
    let right = over(sketch, random, base, cells, fewer);
    (left, right, cells)
}

/// A new hole applied to so many of the variables, in some order.
fn over(sketch: &mut Sketch, random: &mut Random, base: usize, of: usize, kept: usize) -> Tree {
    let mut numbers: Vec<u32> = (0..of as u32).collect();
    random.shuffle(&mut numbers);
    numbers.truncate(kept);
    sketch.holes.push(Hole { context: vec![base; kept], base, hidden: None });
    Tree::occurrence(sketch.holes.len() as u32 - 1, &numbers)
}
