//! The time of one call: in each round as many calls as fill some
//! milliseconds, by one contender after another.

use crate::clock::now;
use crate::contenders::{Contest, Question};
use std::hint::black_box;

pub const ROUNDS: usize = 15;

/// What one contender's part of a round takes at least, in nanoseconds.
const PART: f64 = 4e6;

/// Nanoseconds of one call in each round.
pub struct Times(Vec<f64>);

impl Times {
    pub fn median(&self) -> f64 {
        median(self.0.clone())
    }

    pub fn least(&self) -> f64 {
        self.0.iter().copied().fold(f64::INFINITY, f64::min)
    }

    pub fn most(&self) -> f64 {
        self.0.iter().copied().fold(0.0, f64::max)
    }

    /// The median of each round's own ratio: what slows a whole round down
    /// slows both, and leaves its ratio as it is.
    pub fn ratio_to(&self, other: &Times) -> f64 {
        median(self.0.iter().zip(&other.0).map(|(own, other)| own / other).collect())
    }
}

fn median(mut numbers: Vec<f64>) -> f64 {
    numbers.sort_by(f64::total_cmp);
    numbers[numbers.len() / 2]
}

/// One who is timed: nanoseconds of one call, over so many.
pub type Contender = Box<dyn Fn(&mut Question, u32) -> f64>;

fn contender<T>(call: impl Fn(&mut Question) -> T + 'static) -> Contender {
    Box::new(move |question, calls| {
        let began = now();
        for _ in 0..calls {
            black_box(call(question));
        }
        (now() - began) / f64::from(calls)
    })
}

/// Today's library, then the earlier one where it can be asked: both through
/// the same code.
pub fn libraries<C: Contest>(question: &Question) -> Vec<Contender> {
    let functions = C::asked(question);
    functions.map(|function| contender(move |question| function.library(question))).collect()
}

pub fn second_program<C: Contest>() -> Contender {
    contender(C::second)
}

/// How many calls fill a part of a round.
fn enough(contender: &Contender, question: &mut Question) -> u32 {
    let mut calls = 1;
    while contender(question, calls) * f64::from(calls) < PART {
        calls *= 2;
    }
    calls
}

/// All contenders in turn, so that a disturbance meets all.
pub fn in_turn(contenders: &[Contender], query: &[u8]) -> Vec<Times> {
    let mut question = Question::about(query);
    let mut rounds = Vec::new();
    for contender in contenders {
        rounds.push((contender, enough(contender, &mut question), Vec::new()));
    }
    for _ in 0..ROUNDS {
        for (contender, calls, times) in &mut rounds {
            times.push(contender(&mut question, *calls));
        }
    }
    rounds.into_iter().map(|(_, _, times)| Times(times)).collect()
}
