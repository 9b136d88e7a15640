//! A tiny solver for clauses: unit propagation and case splits, enough for
//! the few fresh variables that stay open once the terms are fixed.

/// The truth of each variable so far; entry 0 is unused.
pub type Truths = Vec<Option<bool>>;

enum State {
    Satisfied,
    Impossible,
    Unit(i32),
    Open(i32),
}

/// Whether some truths for the open variables make every clause true.
pub fn satisfiable(clauses: &[Vec<i32>], truths: &mut Truths) -> bool {
    let mut split = None;
    let mut next = 0;
    while next < clauses.len() {
        match state(&clauses[next], truths) {
            State::Impossible => return false,
            State::Unit(literal) => {
                set(truths, literal);
                // An earlier clause may have become a unit or impossible.
                split = None;
                next = 0;
                continue;
            }
            State::Open(literal) => split = Some(literal),
            State::Satisfied => {}
        }
        next += 1;
    }
    let Some(literal) = split else {
        return true;
    };
    [literal, -literal].into_iter().any(|choice| {
        let mut branch = truths.clone();
        set(&mut branch, choice);
        satisfiable(clauses, &mut branch)
    })
}

fn set(truths: &mut Truths, literal: i32) {
    truths[literal.unsigned_abs() as usize] = Some(literal > 0);
}

fn state(clause: &[i32], truths: &Truths) -> State {
    let mut open = Vec::new();
    for literal in clause {
        match truths[literal.unsigned_abs() as usize] {
            Some(truth) if truth == (*literal > 0) => return State::Satisfied,
            Some(_) => {}
            None => open.push(*literal),
        }
    }
    match open[..] {
        [] => State::Impossible,
        [literal] => State::Unit(literal),
        [literal, ..] => State::Open(literal),
    }
}

#[cfg(test)]
mod tests {
    use super::*;

    #[test]
    fn propagation_and_splits_decide() {
        let all_four = vec![vec![1, 2], vec![-1, 2], vec![1, -2], vec![-1, -2]];
        assert!(!satisfiable(&all_four, &mut vec![None; 3]));
        assert!(satisfiable(&all_four[..3], &mut vec![None; 3]));
        assert!(!satisfiable(&[vec![]], &mut vec![None; 1]));
        assert!(satisfiable(&[], &mut vec![None; 1]));
    }
}
