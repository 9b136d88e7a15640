//! One table for each call: a row for each class of query, and a last line
//! that names the classes in which the library is much slower.

use crate::agreement::{assert_all_agree, earlier_words};
use crate::classes::Class;
use crate::contenders::{Contest, Question};
use crate::stack::stacks;
use crate::timing::{in_turn, libraries, second_program, Times};

/// From this ratio on, library to second program, a class is named.
const SLOWER: f64 = 1.5;

/// As many letters as the longest name of a class has.
const NAME_WIDTH: usize = 29;

pub fn print<C: Contest>(classes: &[Class]) {
    print!("\n{:<NAME_WIDTH$} {:<10} {:>5} ", C::NAME, "verdict", "bytes");
    print!("{} {} {:>5}", column("library", ""), column("second", "program"), "ratio");
    println!("{}", before_titles::<C>());
    let (mut slower, mut earlier) = (Vec::new(), Vec::new());
    for class in classes {
        let name = class.name_and_verdict();
        earlier.push(assert_all_agree::<C>(&name, &Question::about(&class.query)).earlier);
        if C::answers(class.conflict) {
            let ratio = print_row::<C>(class);
            if ratio > SLOWER {
                slower.push(format!("{name} ({ratio:.1})"));
            }
        }
    }
    if slower.is_empty() {
        println!("in no class does the library take more than {SLOWER} times the second program");
    } else {
        println!("above {SLOWER} times the second program: {}", slower.join("; "));
    }
    print!("{}", earlier_words::<C>("classes", &earlier));
}

/// Answers the ratio, library to second program.
fn print_row<C: Contest>(class: &Class) -> f64 {
    let mut contenders = vec![second_program::<C>()];
    contenders.extend(libraries::<C>(&Question::about(&class.query)));
    let times = in_turn(&contenders, &class.query);
    let (second, libraries) = (&times[0], &times[1..]);
    let ratio = libraries[0].ratio_to(second);
    print!("{:<NAME_WIDTH$} {:<10} {:>5} ", class.name, class.verdict(), class.query.len());
    print!("{} {} {ratio:>5.2}", cell(&libraries[0]), cell(second));
    println!("{}", before_columns::<C>(libraries, &class.query));
    ratio
}

pub fn column(median: &str, spread: &str) -> String {
    format!("{median:>10} {spread:<17}")
}

pub fn cell(times: &Times) -> String {
    let spread = format!("({:.0}..{:.0})", times.least(), times.most());
    column(&format!("{:.0}", times.median()), &spread)
}

/// Where an earlier library was timed, the columns about it: its time, today's
/// ratio to it, and the stack of the call today and before.
pub fn before_columns<C: Contest>(libraries: &[Times], query: &[u8]) -> String {
    let [library, before] = libraries else { return String::new() };
    let ratio = library.ratio_to(before);
    let stacks = stacks::<C>(&Question::about(query));
    format!(" {} {ratio:>5.2} {:>6} {:>6}", cell(before), stacks[0], stacks[1])
}

pub fn before_titles<C: Contest>() -> String {
    C::BEFORE.map_or(String::new(), |_| {
        format!(" {} {:>5} {:>6} {:>6}", column("before", ""), "ratio", "stack", "before")
    })
}
