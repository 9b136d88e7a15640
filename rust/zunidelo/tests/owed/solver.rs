//! A tiny solver for clauses, which makes the guesses: unit propagation and
//! case splits, each split tried at random first one way, then the other.

use judge::random::Random;

/// The clauses so far, over the variables from 1 on.
#[derive(Default)]
pub struct Solver {
    clauses: Vec<Vec<i32>>,
}

/// The truth of each variable; entry 0 is unused.
pub type Truths = Vec<Option<bool>>;

impl Solver {
    pub fn add(&mut self, clause: Vec<i32>) {
        self.clauses.push(clause);
    }

    /// Truths that meet all clauses, if there are any. The variables of `first`
    /// are split on before the others, which mostly follow from them.
    pub fn solve(&self, first: &[i32], random: &mut Random) -> Option<Truths> {
        let variables = self.clauses.iter().flatten().map(|literal| literal.unsigned_abs());
        let last = variables.chain(first.iter().map(|one| one.unsigned_abs())).max().unwrap_or(0);
        let mut order = first.to_vec();
        for place in (1..order.len()).rev() {
            order.swap(place, random.below(place + 1));
        }
        order.extend(1..=last as i32);
        let mut search = Search::new(&self.clauses, last as usize);
        let units: Vec<i32> =
            self.clauses.iter().filter(|clause| clause.len() == 1).map(|unit| unit[0]).collect();
        let met = units.into_iter().all(|unit| search.set(unit)) && search.split(&order, random);
        met.then_some(search.truths)
    }
}

struct Search<'a> {
    clauses: &'a [Vec<i32>],
    /// For each literal, by `place`, the clauses that it stands in.
    standing: Vec<Vec<usize>>,
    truths: Truths,
    /// The literals made true, in order.
    trail: Vec<i32>,
}

fn place(literal: i32) -> usize {
    2 * literal.unsigned_abs() as usize + usize::from(literal < 0)
}

impl<'a> Search<'a> {
    fn new(clauses: &'a [Vec<i32>], last: usize) -> Search<'a> {
        let mut standing = vec![Vec::new(); 2 * last + 2];
        for (number, clause) in clauses.iter().enumerate() {
            clause.iter().for_each(|literal| standing[place(*literal)].push(number));
        }
        Search { clauses, standing, truths: vec![None; last + 1], trail: Vec::new() }
    }

    fn truth(&self, literal: i32) -> Option<bool> {
        self.truths[literal.unsigned_abs() as usize].map(|truth| truth == (literal > 0))
    }

    /// Makes the literal true, and all that follow from it by one clause each.
    /// Whether that can be.
    fn set(&mut self, literal: i32) -> bool {
        let mut next = self.trail.len();
        if !self.put(literal) {
            return false;
        }
        while let Some(literal) = self.trail.get(next).copied() {
            next += 1;
            for at in 0..self.standing[place(-literal)].len() {
                let number = self.standing[place(-literal)][at];
                if !self.follow(number) {
                    return false;
                }
            }
        }
        true
    }

    fn put(&mut self, literal: i32) -> bool {
        if self.truth(literal).is_none() {
            self.truths[literal.unsigned_abs() as usize] = Some(literal > 0);
            self.trail.push(literal);
        }
        self.truth(literal) == Some(true)
    }

    /// Where the clause has one literal left, that one is put.
    fn follow(&mut self, number: usize) -> bool {
        let mut left = None;
        for literal in &self.clauses[number] {
            match self.truth(*literal) {
                Some(true) => return true,
                Some(false) => {}
                None if left.is_some() => return true,
                None => left = Some(*literal),
            }
        }
        left.is_some_and(|literal| self.put(literal))
    }

    fn split(&mut self, order: &[i32], random: &mut Random) -> bool {
        let open = order.iter().position(|variable| self.truth(*variable).is_none());
        let Some(open) = open else {
            return true;
        };
        let literal = if random.chance(50) { order[open] } else { -order[open] };
        [literal, -literal].into_iter().any(|choice| {
            let before = self.trail.len();
            let met = self.set(choice) && self.split(&order[open + 1..], random);
            if !met {
                for undone in self.trail.split_off(before) {
                    self.truths[undone.unsigned_abs() as usize] = None;
                }
            }
            met
        })
    }
}

#[test]
fn propagation_and_splits_decide() {
    let all_four = [vec![1, 2], vec![-1, 2], vec![1, -2], vec![-1, -2]];
    let solve = |count: usize| {
        let mut solver = Solver::default();
        all_four[..count].iter().for_each(|clause| solver.add(clause.clone()));
        solver.solve(&[1], &mut Random::new(1))
    };
    assert_eq!(solve(3), Some(vec![None, Some(true), Some(true)]));
    assert_eq!(solve(4), None);
}

#[test]
fn units_that_contradict_are_found() {
    let mut solver = Solver::default();
    solver.add(vec![3]);
    assert!(solver.solve(&[], &mut Random::new(1)).is_some());
    solver.add(vec![-3]);
    assert_eq!(solver.solve(&[], &mut Random::new(1)), None);
}
