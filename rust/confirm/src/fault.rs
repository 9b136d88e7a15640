//! Faults put into the product's answers, to show that the solvers find them.
//! Each is named by what goes wrong.

use crate::answers::Answers;
use crate::lemma::{Lemma, Literal};
use crate::questions::Kind;
use judge::field::{decode, encode, Field};
use judge::graph::fixed_bases;
use judge::random::Random;
use tester::constants::freed;

#[derive(Clone, Copy, Debug, PartialEq, Eq)]
pub enum Fault {
    VerdictFlipped,
    LiteralDropped,
    LiteralTurned,
    ConclusionFlipped,
    ClauseDropped,
    ClauseAdded,
    ImpossibleClauseAdded,
    SignTurned,
    CellWrong,
    CellFilled,
    /// The solvers are not told what fixed numbers are.
    FixedTakenAsFree,
    /// A comparison of a fixed number with another term is left out.
    LeftOutByOne,
    /// In the lemma of a front, as in the next.
    FrontLiteralDropped,
    FrontLiteralTurned,
}

pub const FAULTS: [Fault; 14] = [
    Fault::VerdictFlipped,
    Fault::LiteralDropped,
    Fault::LiteralTurned,
    Fault::ConclusionFlipped,
    Fault::ClauseDropped,
    Fault::ClauseAdded,
    Fault::ImpossibleClauseAdded,
    Fault::SignTurned,
    Fault::CellWrong,
    Fault::CellFilled,
    Fault::FixedTakenAsFree,
    Fault::LeftOutByOne,
    Fault::FrontLiteralDropped,
    Fault::FrontLiteralTurned,
];

impl Fault {
    /// The questions that each must find the fault in some query.
    pub fn found_by(self) -> &'static [Kind] {
        match self {
            Fault::VerdictFlipped => &[Kind::GuessFits, Kind::GuessRuledOut],
            Fault::LiteralDropped
            | Fault::ConclusionFlipped
            | Fault::FixedTakenAsFree
            | Fault::LeftOutByOne => &[Kind::LemmaHolds],
            Fault::LiteralTurned => &[Kind::LemmaFailsGuess],
            Fault::ClauseDropped => &[Kind::ClausesFailGuess, Kind::ClausesSayLemma],
            Fault::ClauseAdded => &[Kind::LemmaSaysClauses],
            Fault::ImpossibleClauseAdded => &[Kind::ClausesOpen],
            Fault::SignTurned => {
                &[Kind::ClausesFailGuess, Kind::ClausesSayLemma, Kind::LemmaSaysClauses]
            }
            Fault::CellWrong | Fault::CellFilled => &[Kind::ModelFits, Kind::ModelFitsFront],
            Fault::FrontLiteralDropped => &[Kind::FrontLemmaHolds],
            Fault::FrontLiteralTurned => &[Kind::FrontLemmaFailsGuess],
        }
    }

    /// The answers with the fault, or nothing where it has no place.
    pub fn put(self, random: &mut Random, answers: &Answers) -> Option<Answers> {
        let mut answers = answers.clone();
        match self {
            Fault::VerdictFlipped => answers.consistent = !answers.consistent,
            Fault::LiteralDropped | Fault::LiteralTurned | Fault::ConclusionFlipped => {
                self.put_in_lemma(random, answers.lemma.as_mut()?)?;
            }
            Fault::FrontLiteralDropped | Fault::FrontLiteralTurned => {
                self.put_in_lemma(random, answers.front.as_mut()?.lemma.as_mut()?)?;
            }
            Fault::CellWrong | Fault::CellFilled => self.put_in_model(random, &mut answers)?,
            Fault::FixedTakenAsFree => free_all(&mut answers)?,
            Fault::LeftOutByOne => leave_out_by_one(&mut answers)?,
            _ => self.put_in_clauses(random, &mut answers)?,
        }
        Some(answers)
    }

    fn put_in_lemma(self, random: &mut Random, lemma: &mut Lemma) -> Option<()> {
        if self == Fault::ConclusionFlipped {
            lemma.conclusion = lemma.conclusion.denied();
            return Some(());
        }
        if lemma.premise.is_empty() {
            return None;
        }
        let place = random.below(lemma.premise.len());
        if matches!(self, Fault::LiteralDropped | Fault::FrontLiteralDropped) {
            lemma.premise.remove(place);
        } else {
            lemma.premise[place] = lemma.premise[place].denied();
        }
        Some(())
    }

    fn put_in_clauses(self, random: &mut Random, answers: &mut Answers) -> Option<()> {
        let clauses = &mut answers.clauses.as_mut()?.clauses;
        let place = random.below(clauses.len());
        match self {
            Fault::ClauseDropped => {
                clauses.remove(place);
            }
            // The other sign of the linking clause's first literal.
            Fault::ClauseAdded => {
                let first = clauses.last()?[0];
                clauses.push(vec![-first]);
            }
            Fault::ImpossibleClauseAdded => clauses.push(Vec::new()),
            _ => {
                let literal = random.below(clauses[place].len());
                clauses[place][literal] *= -1;
            }
        }
        Some(())
    }

    fn put_in_model(self, random: &mut Random, answers: &mut Answers) -> Option<()> {
        let model = answers.model.as_mut()?;
        if model.is_empty() {
            return None;
        }
        let array = random.below(model.len());
        let cells = &mut model[array];
        if self == Fault::CellFilled {
            // No source has this index but by a rare chance.
            cells.push((0x7654_3210, 1));
        } else if cells.is_empty() {
            return None;
        } else {
            let cell = random.below(cells.len());
            cells[cell].1 ^= 1;
        }
        Some(())
    }
}

fn free_all(answers: &mut Answers) -> Option<()> {
    let free: Vec<Field> = decode(&freed(&encode(&answers.fields))).0;
    (free != answers.fields).then(|| answers.fields = free)
}

fn leave_out_by_one(answers: &mut Answers) -> Option<()> {
    let fixed = fixed_bases(&answers.fields);
    let premise = &mut answers.lemma.as_mut()?.premise;
    let before = premise.len();
    premise.retain(|literal| match *literal {
        Literal::Equal(one, other) | Literal::Differ(one, other) => !fixed[one] && !fixed[other],
        Literal::True(_) | Literal::False(_) => true,
    });
    (premise.len() < before).then_some(())
}
