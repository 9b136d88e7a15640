//! What is asked of the solvers about the product's answers, and what they
//! are to say.

use crate::answers::{array_count, Answers, Memory};
use crate::clauses::{conjunction, formula, variables};
use crate::front::Front;
use crate::lemma::Lemma;
use crate::solvers::{Said, Solvers, Way};
use crate::terms::{free_terms, guess, memory, terms};
use judge::field::Field;

/// What is confirmed. Each needs the solver to say one thing.
#[derive(Clone, Copy, Debug, PartialEq, Eq, PartialOrd, Ord)]
pub enum Kind {
    /// Some interpretation of the terms has the guess.
    GuessFits,
    /// No interpretation of the terms has the guess.
    GuessRuledOut,
    /// The looked-up arrays are an interpretation that has the guess.
    ModelFits,
    /// No interpretation of the terms makes the lemma false.
    LemmaHolds,
    /// The guess makes the lemma false.
    LemmaFailsGuess,
    /// The guess makes a clause false.
    ClausesFailGuess,
    /// Something makes all clauses true.
    ClausesOpen,
    /// Where all clauses are true the lemma is.
    ClausesSayLemma,
    /// Where the lemma is true all clauses are, for some fresh values.
    LemmaSaysClauses,
    /// The arrays looked up on the whole are an interpretation of a front's
    /// terms that has the front's guess.
    ModelFitsFront,
    /// No interpretation of the whole's terms makes a front's lemma false.
    FrontLemmaHolds,
    /// The whole's guess makes a front's lemma false.
    FrontLemmaFailsGuess,
}

impl Kind {
    pub fn words(self) -> &'static str {
        match self {
            Kind::GuessFits => "consistent, and some memories fit the guess (z3)",
            Kind::GuessRuledOut => "conflict, and no memories fit the guess (z3)",
            Kind::ModelFits => "the looked-up memories fit terms and guess (z3)",
            Kind::LemmaHolds => "the lemma holds in every interpretation (z3)",
            Kind::LemmaFailsGuess => "the lemma is false under the guess (z3)",
            Kind::ClausesFailGuess => "the clauses rule the guess out (cadical)",
            Kind::ClausesOpen => "the clauses can be met (cadical)",
            Kind::ClausesSayLemma => "the clauses say the lemma (z3)",
            Kind::LemmaSaysClauses => "the clauses say no more than the lemma (z3)",
            Kind::ModelFitsFront => "the whole's memories fit a front's terms and guess (z3)",
            Kind::FrontLemmaHolds => {
                "a front's lemma holds in every interpretation of the whole (z3)"
            }
            Kind::FrontLemmaFailsGuess => "a front's lemma is false under the whole's guess (z3)",
        }
    }

    fn wanted(self) -> Said {
        match self {
            Kind::GuessFits | Kind::ModelFits | Kind::ClausesOpen | Kind::ModelFitsFront => {
                Said::Satisfiable
            }
            _ => Said::Unsatisfiable,
        }
    }
}

/// How a question comes out.
#[derive(Clone, Copy, Debug, PartialEq, Eq)]
pub enum Outcome {
    Confirmed,
    Denied,
    Undecided,
}

/// One question: what is asked, by which solver it is answered.
pub struct Question {
    pub kind: Kind,
    text: Text,
}

enum Text {
    /// For z3.
    Script(String),
    /// For z3, with no array in it.
    Bits(String),
    /// For cadical.
    Formula(String),
}

impl Question {
    fn script(kind: Kind, parts: &[&str]) -> Question {
        Question { kind, text: Text::Script(parts.concat()) }
    }

    fn bits(kind: Kind, parts: &[&str]) -> Question {
        Question { kind, text: Text::Bits(parts.concat()) }
    }

    fn formula(kind: Kind, formula: String) -> Question {
        Question { kind, text: Text::Formula(formula) }
    }

    pub fn ask(&self, solvers: &mut Solvers) -> Result<Outcome, String> {
        let said = match &self.text {
            Text::Script(script) => solvers.script(script, Way::Usual)?,
            Text::Bits(script) => solvers.script(script, Way::Bits)?,
            Text::Formula(formula) => solvers.formula(formula)?,
        };
        Ok(match said {
            Said::Neither => Outcome::Undecided,
            said if said == self.kind.wanted() => Outcome::Confirmed,
            _ => Outcome::Denied,
        })
    }
}

fn assert(formula: &str) -> String {
    format!("(assert {formula})\n")
}

fn deny(formula: &str) -> String {
    format!("(assert (not {formula}))\n")
}

/// All questions about the answers to one query.
pub fn questions(answers: &Answers) -> Vec<Question> {
    let fields = &answers.fields;
    let verdict = if answers.consistent { Kind::GuessFits } else { Kind::GuessRuledOut };
    let mut questions = vec![Question::script(verdict, &[&terms(fields), &guess(fields)])];
    if let Some(model) = &answers.model {
        questions.push(fits(Kind::ModelFits, fields, model));
    }
    if let Some(lemma) = &answers.lemma {
        questions.extend(rules_out([Kind::LemmaHolds, Kind::LemmaFailsGuess], fields, lemma));
    }
    questions.extend(clause_questions(answers));
    questions.extend(answers.front.iter().flat_map(|front| front_questions(answers, front)));
    questions
}

/// Whether these arrays, one for each array term, fit terms and guess.
fn fits(kind: Kind, fields: &[Field], model: &[Memory]) -> Question {
    let given: String = (model.iter().enumerate())
        .map(|(array, cells)| assert(&format!("(= a{array} {})", memory(cells))))
        .collect();
    Question::script(kind, &[&terms(fields), &guess(fields), &given])
}

/// Whether the lemma holds in every interpretation of the terms, and whether
/// it is false under the guess.
fn rules_out([holds, fails]: [Kind; 2], fields: &[Field], lemma: &Lemma) -> [Question; 2] {
    let lemma = lemma.formula();
    [
        Question::script(holds, &[&terms(fields), &deny(&lemma)]),
        Question::bits(fails, &[&free_terms(fields), &guess(fields), &assert(&lemma)]),
    ]
}

/// Whether the whole's arrays fit the front, and whether the front's lemma
/// rules the whole's guess out. Were the front of a consistent whole in
/// conflict, one of the questions about its lemma would be denied.
fn front_questions(answers: &Answers, front: &Front) -> Vec<Question> {
    let mut questions = Vec::new();
    if let Some(model) = &answers.model {
        let fields = &answers.fields[..front.length];
        let arrays = &model[..array_count(fields)];
        questions.push(fits(Kind::ModelFitsFront, fields, arrays));
    }
    if let Some(lemma) = &front.lemma {
        let kinds = [Kind::FrontLemmaHolds, Kind::FrontLemmaFailsGuess];
        questions.extend(rules_out(kinds, &answers.fields, lemma));
    }
    questions
}

fn clause_questions(answers: &Answers) -> Vec<Question> {
    let Answers { fields, lemma: Some(lemma), clauses: Some(clauses), .. } = answers else {
        return Vec::new();
    };
    let (free, all, lemma_formula) = (free_terms(fields), conjunction(clauses), lemma.formula());
    let fresh_free = variables(fields, clauses, None);
    let fresh_meant = variables(fields, clauses, Some(lemma));
    vec![
        Question::formula(Kind::ClausesFailGuess, formula(fields, clauses, true)),
        Question::formula(Kind::ClausesOpen, formula(fields, clauses, false)),
        Question::bits(
            Kind::ClausesSayLemma,
            &[&free, &fresh_free, &assert(&all), &deny(&lemma_formula)],
        ),
        Question::bits(
            Kind::LemmaSaysClauses,
            &[&free, &fresh_meant, &deny(&all), &assert(&lemma_formula)],
        ),
    ]
}

#[cfg(test)]
mod tests {
    use super::*;
    use crate::answers::ask;
    use judge::field::encode;

    /// Two reads of one array at one index, then a write over it and a read of
    /// that.
    fn fields(second_read: u32) -> Vec<Field> {
        vec![
            Field::Base { value: 5 },
            Field::Variable,
            Field::Read { array: 0, index: 0, value: 7 },
            Field::Read { array: 0, index: 0, value: second_read },
            Field::Write { array: 0, index: 0, value: 0 },
            Field::Read { array: 1, index: 0, value: 5 },
        ]
    }

    fn script(fields: &[Field], kind: Kind) -> String {
        let answers = ask(&encode(fields)).expect("an accepted query");
        let asked = questions(&answers).into_iter().find(|question| question.kind == kind);
        let (Text::Script(script) | Text::Bits(script)) = asked.expect("such a question").text
        else {
            panic!("a question for z3")
        };
        script
    }

    #[test]
    fn the_lemma_of_a_front_is_asked_about_over_the_whole() {
        let fields = fields(9);
        let lemma = "(=> (and true ) (= b1 b2))";
        assert_eq!(script(&fields, Kind::FrontLemmaHolds), terms(&fields) + &deny(lemma));
        let expected = [free_terms(&fields), guess(&fields), assert(lemma)].concat();
        assert_eq!(script(&fields, Kind::FrontLemmaFailsGuess), expected);
    }

    #[test]
    fn the_memories_of_the_whole_are_asked_about_over_a_front() {
        let fields = fields(7);
        let front = &fields[..3];
        let memory = assert(&format!("(= a0 {})", memory(&[(5, 7)])));
        let expected = [terms(front), guess(front), memory].concat();
        assert_eq!(script(&fields, Kind::ModelFitsFront), expected);
    }
}
