//! Points the document leaves to its readings, each as a small problem.

mod common;
use common::*;
use independent::{check, program};

/// \x.U[] = \x.g a x
const HEADS_DOWN_RECORDS_UP: &str = "HO NONE 0\nHA 6 NONE\nLA 7\nCA 3 NONE\nVA 0 NONE\nCE 10 NONE\n\
                CE 9 11\nCA 5 12\nLA 13\nEQ 8 14 1\n";

#[test]
fn records_before_a_lost_variable_are_written_first() {
    let text = format!("{PRELUDE}{HEADS_DOWN_RECORDS_UP}");
    assert_eq!(Lent::with_spare(&text, 0).solve(), reply(9, 0, 0));
    assert_eq!(Lent::with_spare(&text, 1).solve(), reply(2, 0, 0));
}

#[test]
fn a_lost_head_is_an_escape_before_its_arguments() {
    let text = format!(
        "{PRELUDE}AR 1 0\nHO NONE 0\nHA 7 NONE\nLA 8\nCA 3 NONE\nCE 10 NONE\nVA 0 11\n\
                LA 12\nEQ 9 13 6\n"
    );
    for spare in 0..3 {
        assert_eq!(Lent::with_spare(&text, spare).solve(), reply(2, 0, 0), "spare {spare}");
    }
}

#[test]
fn more_equations_than_places_is_queue_full_at_once() {
    let text = "BT 0\nKO 0\nKO 0\nCA 1 NONE\nCA 2 NONE\nCA 1 NONE\nCA 1 NONE\nEQ 3 4 0\nEQ 5 6 0\n";
    assert_eq!(Lent::of_text(text, 9, 1).solve(), reply(8, 0, 0));
    assert_eq!(Lent::of_text(text, 9, 2).solve(), reply(1, 0, 0));
}

#[test]
fn no_equation_needs_no_queue_and_no_record() {
    assert_eq!(Lent::of_text("BT 5\nHO NONE 0\n", 2, 0).solve(), reply(0, 0, 2));
    let (mut none, mut words) = (Vec::new(), Vec::new());
    assert_eq!(independent::solve(&mut none, 0, &mut words, &mut Vec::new()), reply(0, 0, 0));
}

#[test]
fn step_one_copies_also_when_both_sides_are_the_same_solved_hole() {
    let text = format!(
        "{PRELUDE}HO NONE 0\nHA 6 NONE\nCA 3 NONE\nHA 6 NONE\nHA 6 NONE\nEQ 7 8 0\n\
                EQ 9 10 0\n"
    );
    assert_eq!(Lent::with_spare(&text, 2).solve(), reply(9, 0, 0));
    assert_eq!(Lent::with_spare(&text, 3).solve(), reply(0, 0, 16));
}

#[test]
fn a_copy_that_does_not_fit_comes_before_the_clash() {
    let file = example("p11");
    assert_eq!(Lent::new(&file, 16, 4).solve(), reply(9, 0, 0));
    assert_eq!(Lent::new(&file, 17, 4).solve(), reply(1, 0, 0));
}

/// \xy.W[x,y] = \xy.a; then \xy.U[] = \xy.f W[x,y].
#[test]
fn an_argument_without_a_place_is_no_escape_at_a_solved_hole() {
    let text = format!(
        "{PRELUDE}CE 0 NONE\nCE 0 6\nHO 7 0\nHO NONE 0\n\
         VA 1 NONE\nVA 0 NONE\nCE 11 NONE\nCE 10 12\nHA 8 13\nLA 14\nLA 15\nCA 3 NONE\nLA 17\nLA 18\n\
         HA 9 NONE\nLA 20\nLA 21\n\
         VA 1 NONE\nVA 0 NONE\nCE 24 NONE\nCE 23 25\nHA 8 26\nCE 27 NONE\nCA 4 28\nLA 29\nLA 30\n\
         EQ 16 19 2\nEQ 22 31 2\n"
    );
    let mut lent = Lent::with_spare(&text, 4);
    assert_eq!(lent.solve(), reply(0, 0, 38));
    assert_eq!((lent.solutions[8], lent.solutions[9]), (34, 37));
    assert_eq!((lent.record(35), lent.record(37)), ([7, 3, NO, 0], [7, 4, 36, 0]));
}

#[test]
fn the_hole_itself_is_answer_3_even_with_a_lost_argument() {
    let text = "BT 0\nAR 0 0\nAR 0 1\nKO 1\nCE 0 NONE\nHO 4 0\n\
                VA 1 NONE\nCE 6 NONE\nHA 5 7\nLA 8\nLA 9\n\
                VA 0 NONE\nCE 11 NONE\nHA 5 12\nCE 13 NONE\nCA 3 14\nLA 15\nLA 16\nEQ 10 17 2\n";
    assert_eq!(Lent::with_spare(text, 0).solve(), reply(3, 0, 0));
}

#[test]
fn typing_and_patterns_ask_only_for_what_an_equation_reaches() {
    let unreached = "BT 0\nCE 0 NONE\nCE 0 1\nHO 2 0\nVA 9 NONE\nVA 9 NONE\nCE 5 NONE\nCE 4 6\nHA 3 7\n";
    assert_eq!(Lent::of_text(unreached, 9, 1).solve(), reply(0, 0, 9));
}

#[test]
fn a_nested_offending_occurrence_has_the_lower_place() {
    let text = "BT 0\nAR 0 0\nKO 0\nCE 0 NONE\nHO 3 0\nCA 2 NONE\nCE 5 NONE\nHA 4 6\nCE 7 NONE\n\
                HA 4 8\nCA 2 NONE\nEQ 9 10 0\n";
    assert_eq!(Lent::with_spare(text, 5).solve(), reply(7, 7, 0));
}

#[test]
fn place_of_ill_typed_is_the_lowest_equation() {
    let text = "BT 0\nBT 1\nKO 0\nKO 1\nCA 2 NONE\nCA 2 NONE\nEQ 4 5 0\nCA 2 NONE\nCA 3 NONE\n\
                EQ 7 8 0\nVA 0 NONE\nCA 3 NONE\nEQ 10 11 1\n";
    assert_eq!(Lent::with_spare(text, 5).solve(), reply(6, 9, 0));
}

#[test]
fn a_bare_variable_of_arrow_type_is_a_hole_argument_only() {
    let hole = "BT 0\nAR 0 0\nAR 1 0\nCE 1 NONE\nHO 3 0\nVA 0 NONE\nCE 5 NONE\nHA 4 6\nLA 7\n\
                VA 0 NONE\nCE 9 NONE\nHA 4 10\nLA 11\nEQ 8 12 2\n";
    assert_eq!(Lent::with_spare(hole, 0).solve(), reply(0, 0, 14));
    let constant = "BT 0\nAR 0 0\nAR 1 0\nKO 2\nVA 0 NONE\nCE 4 NONE\nCA 3 5\nLA 6\nVA 0 NONE\n\
                CE 8 NONE\nCA 3 9\nLA 10\nEQ 7 11 2\n";
    assert_eq!(Lent::with_spare(constant, 0).solve(), reply(6, 12, 0));
}

#[test]
fn narrowed_holes_that_are_solved_later_have_solution_words() {
    let text = format!(
        "{PRELUDE}CE 0 NONE\nCE 0 6\nHO 7 0\n\
         VA 1 NONE\nVA 0 NONE\nCE 10 NONE\nCE 9 11\nHA 8 12\nLA 13\nLA 14\n\
         VA 0 NONE\nVA 1 NONE\nCE 17 NONE\nCE 16 18\nHA 8 19\nLA 20\nLA 21\n\
         VA 1 NONE\nVA 0 NONE\nCE 24 NONE\nCE 23 25\nHA 8 26\nLA 27\nLA 28\nCA 3 NONE\nLA 30\nLA 31\n\
         EQ 15 22 2\nEQ 29 32 2\n"
    );
    let mut lent = Lent::with_spare(&text, 10);
    assert_eq!(lent.solve(), reply(0, 0, 39));
    assert_eq!((lent.record(35), lent.record(36)), ([4, NO, 0, 0], [9, 35, NO, 0]));
    assert_eq!((lent.solutions[8], lent.solutions[35]), (36, 38));
    assert_eq!((lent.record(37), lent.record(38)), ([9, 35, NO, 0], [7, 3, NO, 0]));
}

#[test]
fn a_solution_keeps_its_own_bound_variables() {
    // c5 takes a function: \x.U[x] = \x.c5 (\z.c4 z x)
    let text = "BT 0\nAR 0 0\nAR 0 1\nAR 1 0\nKO 2\nKO 3\nCE 0 NONE\nHO 6 0\n\
                VA 0 NONE\nCE 8 NONE\nHA 7 9\nLA 10\n\
                VA 0 NONE\nVA 1 NONE\nCE 13 NONE\nCE 12 14\nCA 4 15\nLA 16\nCE 17 NONE\nCA 5 18\n\
                LA 19\nEQ 11 20 1\n";
    let printed = program(&file(text));
    assert_eq!(String::from_utf8_lossy(&printed), "0 0 30\nh7 = c5(\\c4(v0,v1))\n");
}

#[test]
fn unsolved_holes_print_applied_to_their_context() {
    let text = "BT 0\nHO NONE 0\nCE 0 NONE\nCE 0 2\nHO 3 0\n";
    assert_eq!(program(&file(text)), b"0 0 5\nh1 = h1\nh4 = h4(v0,v1)\n");
}

#[test]
fn check_answers_refusals_only() {
    let lent = Lent::new(&example("p03"), 20, 1);
    assert_eq!(check(&lent.table, lent.n), reply(0, 0, 0));
    assert_eq!(check(&lent.table, 21), reply(4, 0, 0));
    let lent = Lent::new(&example("p07"), 20, 1);
    assert_eq!(check(&lent.table, lent.n), reply(7, 13, 0));
}
