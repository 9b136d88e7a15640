//! The least that a call through the C face costs: an empty query, which has
//! no field, and a query of one byte, which is refused at once.

use crate::agreement::assert_all_agree;
use crate::contenders::{Contest, Question};
use crate::libraries::{Check, Clauses, Lookup};
use crate::table::{before_columns, before_titles, cell, column};
use crate::timing::{in_turn, libraries};

const NO_BYTE: &[u8] = &[];
const ONE_BYTE: &[u8] = &[9];

pub fn print() {
    println!();
    print_line("the least of a call", column("library", "") + &before_titles::<Check>());
    measure::<Check>("check of no byte", NO_BYTE);
    measure::<Check>("check of one byte, refused", ONE_BYTE);
    measure::<Lookup>("lookup of one byte, refused", ONE_BYTE);
    measure::<Clauses>("clauses of one byte, refused", ONE_BYTE);
}

fn measure<C: Contest>(name: &str, query: &[u8]) {
    let question = Question::about(query);
    assert_all_agree::<C>(name, &question);
    let times = in_turn(&libraries::<C>(&question), query);
    print_line(name, cell(&times[0]) + &before_columns::<C>(&times, query));
}

fn print_line(name: &str, columns: String) {
    println!("{name:<28} {}", columns.trim_end());
}
