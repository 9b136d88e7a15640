//! Whether all contenders answer the same. The second program is held to that
//! in everything. An earlier library may take another path in a conflict: then
//! its lemma of the same pair may be another, and with it the clauses and what
//! a buffer has room for, and nothing else. One that knows no fixed numbers
//! must refuse each query that has one, and is compared on the others alone.

use crate::contenders::{Contest, Question, CONFLICT, NO_ROOM, REFUSED};
use crate::libraries::{Answer, Check, Function};
use judge::lemma::{Lemma, Literal};

/// What one contender answers, and the question with its buffers afterwards.
type Asked = (Answer, Question);

/// What all answer, and how an earlier library, where one is linked, answers.
pub struct Agreed {
    pub answer: Answer,
    pub earlier: Alike,
}

#[derive(Clone, Copy, Debug, PartialEq, Eq)]
pub enum Alike {
    Whole,
    /// All but the lemma of a conflict.
    ButForTheLemma,
    /// It refuses the query for its fixed numbers, which it does not know.
    KnowsNoFixed,
    Not,
}

/// Ends the run where a contender answers otherwise than the library: in what
/// is returned, in the report or in a buffer.
pub fn assert_all_agree<C: Contest>(name: &str, question: &Question) -> Agreed {
    let library = asked(|question| C::TODAY.library(question), question);
    let second = asked(C::second, question);
    let fail = |contender: &str, other: &Asked| {
        let (today, others) = (library.0, other.0);
        panic!(
            "{}, {name}: the library answers {today:?}, the {contender} {others:?}, or their buffers differ",
            C::NAME
        );
    };
    if library != second {
        fail("second program", &second);
    }
    let earlier = C::BEFORE.map_or(Alike::Whole, |before| match C::before(question) {
        Some(before) => alike(C::TODAY, before, question),
        None => refuses(before, question),
    });
    if let (Alike::Not, Some(before)) = (earlier, C::BEFORE) {
        fail("earlier library", &asked(|question| before.library(question), question));
    }
    Agreed { answer: library.0, earlier }
}

/// Where an earlier library is linked, a line on how often it answers alike.
pub fn earlier_words<C: Contest>(what: &str, all: &[Alike]) -> String {
    let count = |wanted: Alike| all.iter().filter(|alike| **alike == wanted).count();
    let (others, unknown) = (count(Alike::ButForTheLemma), count(Alike::KnowsNoFixed));
    let compared = all.len() - unknown;
    let words = match (C::BEFORE, others) {
        (None, _) => return String::new(),
        (_, 0) => format!("the earlier library answers the same in all {compared} {what}"),
        (_, others) => format!(
            "the earlier library has another lemma in {others} of {compared} {what}, and all else the same"
        ),
    };
    match unknown {
        0 => format!("{words}\n"),
        _ => format!(
            "{words};\n{unknown} with fixed numbers it refuses, and they are not compared\n"
        ),
    }
}

/// How a library that knows no fixed numbers is to answer a query with one.
fn refuses<C: Contest>(before: C, question: &Question) -> Alike {
    match asked(|question| before.library(question), question) {
        ((REFUSED, _), after) if after == *question => Alike::KnowsNoFixed,
        _ => Alike::Not,
    }
}

fn asked(call: impl Fn(&mut Question) -> Answer, question: &Question) -> Asked {
    let mut question = question.clone();
    (call(&mut question), question)
}

/// How far two libraries answer a question alike. Where their lemmas differ,
/// so may what the question's buffer has room for: then each must answer as
/// its own lemma has it.
fn alike<C: Contest>(today: C, before: C, question: &Question) -> Alike {
    let by = |function: C, question: &Question| asked(|asked| function.library(asked), question);
    if by(today, question) == by(before, question) {
        return Alike::Whole;
    }
    let wide = question.clone().with_all_room();
    let (one, other) = (by(today, &wide), by(before, &wide));
    let lemmas = [Some(Check::TODAY), Check::BEFORE].map(|check| lemma_of(check?, question));
    let may_differ = differ_by_their_paths(&lemmas)
        && but_for_the_lemma::<C>(&one, &other)
        && by(today, question) == in_room::<C>(one, question)
        && by(before, question) == in_room::<C>(other, question);
    if may_differ {
        Alike::ButForTheLemma
    } else {
        Alike::Not
    }
}

/// Whether these are two lemmas of one pair: both have the same "equal", or
/// none, and the same conclusion, and something else between.
fn differ_by_their_paths(lemmas: &[Option<Lemma>; 2]) -> bool {
    let [Some(one), Some(other)] = lemmas else { return false };
    let equal = |lemma: &Lemma| match lemma.premise.first() {
        Some(Literal::Equal(first, later)) => Some((*first, *later)),
        _ => None,
    };
    one != other && one.conclusion == other.conclusion && equal(one) == equal(other)
}

/// Whether both are conflicts, with reports that differ in what the lemma
/// settles alone, and neither has written more than it reports.
fn but_for_the_lemma<C: Contest>(one: &Asked, other: &Asked) -> bool {
    let kept = |(returned, mut report): Answer| {
        report[C::OF_THE_LEMMA].fill(0);
        (returned, report)
    };
    let is_tidy =
        |((_, report), question): &Asked| question.is_untouched_after(&C::written(report));
    one.0 .0 == CONFLICT && kept(one.0) == kept(other.0) && is_tidy(one) && is_tidy(other)
}

/// What is to be answered to the question, by the answer that has all room.
fn in_room<C: Contest>((answer, wide): Asked, question: &Question) -> Asked {
    if question.has_room_for(&C::written(&answer.1)) {
        (answer, wide.with_room_of(question))
    } else {
        ((REFUSED, [NO_ROOM, 0, 0, 0, 0]), question.clone())
    }
}

/// The lemma that a check writes; nothing where it answers no conflict.
pub fn lemma_of(check: Check, question: &Question) -> Option<Lemma> {
    let wide = question.clone().with_all_room();
    let ((returned, report), wide) = asked(|asked| check.library(asked), &wide);
    let bytes = wide.bytes(Check::written(&report).bytes);
    (returned == CONFLICT).then(|| Lemma::read(bytes).expect("a lemma is made of its fields"))
}

#[cfg(test)]
mod tests {
    use super::*;
    use crate::classes::classes;
    use crate::libraries::{Clauses, Lookup};

    /// Today's answer to each class in conflict, and the same once more.
    fn answers<C: Contest>() -> Vec<(Asked, Asked)> {
        let conflicts = classes().into_iter().filter(|class| class.conflict);
        let ask = |query: &[u8]| asked(|asked| C::TODAY.library(asked), &Question::about(query));
        conflicts.map(|class| (ask(&class.query), ask(&class.query))).collect()
    }

    /// Whether an earlier answer that is changed so may stand beside today's.
    fn may_stand<C: Contest>(change: impl Fn(&mut Asked)) -> bool {
        let answers = answers::<C>();
        assert!(answers.len() > 10);
        let mut stands = answers.into_iter().map(|(today, mut earlier)| {
            change(&mut earlier);
            but_for_the_lemma::<C>(&today, &earlier)
        });
        let first = stands.next().expect("a class");
        assert!(stands.all(|stand| stand == first), "in all classes or in none");
        first
    }

    #[test]
    fn a_lemma_and_its_clauses_may_be_others() {
        assert!(may_stand::<Check>(|((_, report), question)| {
            *question = question.clone().with_all_room();
            report[3] = 7;
        }));
        assert!(may_stand::<Clauses>(|((_, report), question)| {
            *question = question.clone().with_all_room();
            report[2..].fill(7);
        }));
    }

    #[test]
    fn nothing_else_may_be_another() {
        for place in 0..3 {
            assert!(!may_stand::<Check>(|((_, report), _)| report[place] += 1), "{place}");
        }
        for place in 0..2 {
            assert!(!may_stand::<Clauses>(|((_, report), _)| report[place] += 1), "{place}");
        }
        assert!(!may_stand::<Check>(|((returned, _), _)| *returned += 1));
        assert!(!may_stand::<Clauses>(|((returned, _), _)| *returned += 1));
    }

    #[test]
    fn two_lemmas_differ_by_their_paths_alone() {
        let lemma =
            |premise: &[Literal], conclusion| Some(Lemma { premise: premise.to_vec(), conclusion });
        let (equal, differ, holds) =
            (Literal::Equal(0, 1), Literal::Differ(0, 2), Literal::True(0));
        let today = || lemma(&[equal, holds], (3, 4));
        let stands = |earlier| differ_by_their_paths(&[today(), earlier]);
        assert!(stands(lemma(&[equal, differ], (3, 4))));
        assert!(!stands(today()), "the same");
        assert!(!stands(lemma(&[equal, differ], (3, 5))), "of another pair");
        assert!(!stands(lemma(&[Literal::Equal(0, 2), differ], (3, 4))), "at other indices");
        assert!(!stands(lemma(&[differ], (3, 4))), "at one index");
        assert!(!stands(None), "no conflict");
    }

    #[test]
    fn nothing_may_stand_after_what_is_reported() {
        assert!(!may_stand::<Check>(|((_, report), _)| report[3] -= 1));
        assert!(!may_stand::<Clauses>(|((_, report), _)| report[4] -= 2));
    }

    #[test]
    fn a_lookup_may_not_be_another_at_all() {
        assert!(!may_stand::<Lookup>(|((_, report), _)| report[2] += 1));
    }

    #[test]
    fn a_buffer_with_less_room_is_answered_by_the_length() {
        for (wide, _) in answers::<Check>() {
            let length = wide.0 .1[3] as usize;
            for room in [0, length - 1, length] {
                let question = wide.1.clone().with_all_room().with_bytes(room);
                let answered = asked(|asked| Check::TODAY.library(asked), &question);
                assert!(
                    answered == in_room::<Check>(wide.clone(), &question),
                    "{room} of {length}"
                );
            }
        }
    }
}
