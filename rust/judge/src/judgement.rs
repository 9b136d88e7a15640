//! One query judged whole: verdict, lemma, model, clauses, and beside them
//! pairs and choice of the lemma.

use crate::clauses::judge_clauses;
use crate::field::{encode, Field};
use crate::graph::fixed_bases;
use crate::interpretation::{free_bits, Interpretation};
use crate::lemma::Lemma;
use crate::walks::Walks;
use second::{Checked, MAX_CLAUSE_NUMBERS, MAX_LEMMA_BYTES};

/// The most bits of free choice that the judge enumerates.
pub const MAX_FREE_BITS: u32 = 24;

#[derive(Clone, Copy, Debug, PartialEq, Eq)]
pub enum Verdict {
    Consistent,
    Conflict,
}

/// Judges the second program on an accepted tiny query whose values are all
/// below two to the width; answers the verdict, or what is wrong.
pub fn judge(fields: &[Field], width: u32) -> Result<Verdict, String> {
    assert!(free_bits(fields, width) <= MAX_FREE_BITS, "too large a query for the judge");
    let query = encode(fields);
    match second::check(&query, MAX_LEMMA_BYTES) {
        Checked::Refused(refusal) => Err(format!("an accepted query was refused: {refusal:?}")),
        Checked::Consistent { pairs } => {
            judge_pairs(fields, width, pairs)?;
            judge_consistent(fields, width, &query)?;
            Ok(Verdict::Consistent)
        }
        Checked::Conflict { pairs, lemma } => {
            judge_pairs(fields, width, pairs)?;
            let lemma = Lemma::read(&lemma).ok_or("the lemma is not made of its fields")?;
            judge_conflict(fields, width, &query, &lemma)?;
            Ok(Verdict::Conflict)
        }
    }
}

fn judge_pairs(fields: &[Field], width: u32, pairs: usize) -> Result<(), String> {
    let expected = Walks::of(fields, width).pairs();
    if pairs == expected {
        Ok(())
    } else {
        Err(format!("{pairs} pairs reported, {expected} found"))
    }
}

/// The looked-up model is itself the interpretation that "consistent" claims.
fn judge_consistent(fields: &[Field], width: u32, query: &[u8]) -> Result<(), String> {
    let walks = Walks::of(fields, width);
    if walks.chosen().is_some() {
        return Err("consistent, but two sources conflict".to_string());
    }
    let mut model = Interpretation::assigned(fields, width);
    for array in 0.. {
        match model_array(query, array, width, &walks) {
            Ok(memory) => model.arrays.push(memory),
            Err(Some(refusal)) if refusal.number == 11 => break,
            Err(refusal) => return Err(format!("a wrong cell of array {array}: {refusal:?}")),
        }
    }
    if !model.meets(fields) {
        return Err("the model is no interpretation".to_string());
    }
    match second::clauses_at_width(query, MAX_CLAUSE_NUMBERS, width) {
        Err(refusal) if refusal.number == 12 => Ok(()),
        other => Err(format!("clauses for a consistent query: {other:?}")),
    }
}

/// The looked-up array; a refusal, or nothing for a value that 01 does not
/// give, if there is one on the way.
fn model_array(
    query: &[u8],
    array: u16,
    width: u32,
    walks: &Walks,
) -> Result<u32, Option<second::Refusal>> {
    let mut memory = 0;
    for index in 0..1 << width {
        let value = second::lookup(query, u64::from(array), u64::from(index)).map_err(Some)?;
        if value != u64::from(walks.cell(array, index)) {
            return Err(None);
        }
        memory |= (value as u32) << (width * index);
    }
    Ok(memory)
}

fn judge_conflict(fields: &[Field], width: u32, query: &[u8], lemma: &Lemma) -> Result<(), String> {
    judge_lemma(fields, width, lemma)?;
    let whole = Walks::of(fields, width).whole().ok_or("conflict, but no two sources")?;
    let written = second::clauses_at_width(query, MAX_CLAUSE_NUMBERS, width)
        .map_err(|refusal| format!("the clauses were refused: {refusal:?}"))?;
    judge_clauses(fields, width, lemma, &whole, &written)
}

fn judge_lemma(fields: &[Field], width: u32, lemma: &Lemma) -> Result<(), String> {
    judge_interpretations(fields, width, lemma)?;
    let guess = Interpretation::assigned(fields, width);
    if lemma.holds(&guess) {
        return Err("the lemma does not fail under the guess".to_string());
    }
    judge_form(fields, lemma)?;
    if Walks::of(fields, width).chosen().as_ref() != Some(lemma) {
        return Err("another lemma was to be chosen".to_string());
    }
    Ok(())
}

/// No literal compares two fixed numbers (02, E1), and none stands twice.
fn judge_form(fields: &[Field], lemma: &Lemma) -> Result<(), String> {
    let fixed = fixed_bases(fields);
    let is_fixed = |base: u16| fixed[usize::from(base)];
    for (place, literal) in lemma.premise.iter().enumerate() {
        if literal.compared().is_some_and(|(one, other)| is_fixed(one) && is_fixed(other)) {
            return Err(format!("{literal:?} compares two fixed numbers"));
        }
        if lemma.premise[..place].contains(literal) {
            return Err(format!("{literal:?} stands twice"));
        }
    }
    Ok(())
}

/// The lemma holds in every interpretation, and none has the guess.
fn judge_interpretations(fields: &[Field], width: u32, lemma: &Lemma) -> Result<(), String> {
    let guess = Interpretation::assigned(fields, width);
    let mut tried = Interpretation::new(width);
    for choice in 0..1_u64 << free_bits(fields, width) {
        tried.choose(fields, choice);
        if !lemma.holds(&tried) {
            return Err(format!("the lemma fails in interpretation {choice}"));
        }
        if tried.bases == guess.bases && tried.booleans == guess.booleans {
            return Err(format!("conflict, but interpretation {choice} has the guess"));
        }
    }
    Ok(())
}

#[cfg(test)]
mod tests {
    use super::*;
    use crate::lemma::Literal;
    use crate::random::Random;
    use crate::tiny::tiny;
    use crate::ways::ways;

    const WIDTH: u32 = 1;

    /// K1 and K4 of 01 with small values, at these two index terms.
    fn two_reads(indices: [Field; 2]) -> Vec<Field> {
        let read = |index: u16| Field::Read { array: 0, index, value: u32::from(index) };
        [&indices[..], &[Field::Variable, read(0), read(1)]].concat()
    }

    fn read_through_write(indices: [Field; 2]) -> Vec<Field> {
        let read = |array: u16| Field::Read { array, index: 0, value: u32::from(array) };
        let write = Field::Write { array: 0, index: 1, value: 1 };
        [&indices[..], &[Field::Variable, write, read(1), read(0)]].concat()
    }

    fn found(judged: Result<(), String>, words: &str) {
        let wrong = judged.expect_err("a wrong answer");
        assert!(wrong.contains(words), "{wrong}");
    }

    #[test]
    fn a_comparison_left_out_with_one_fixed_number_fails_somewhere() {
        let [fixed, free] = [Field::Fixed { value: 1 }, Field::Base { value: 1 }];
        let other = Field::Base { value: 0 };
        let queries = [
            two_reads([fixed, free]),
            two_reads([free, fixed]),
            read_through_write([fixed, other]),
            read_through_write([other, fixed]),
        ];
        for fields in queries {
            let lemma = Walks::of(&fields, WIDTH).chosen().expect("a conflict");
            assert_eq!(judge_lemma(&fields, WIDTH, &lemma), Ok(()), "{fields:?}");
            let conclusion = lemma.clone().without(|_| true);
            assert_ne!(conclusion, lemma, "{fields:?}");
            found(judge_lemma(&fields, WIDTH, &conclusion), "fails in interpretation");
        }
    }

    #[test]
    fn a_comparison_of_two_fixed_numbers_may_not_stay() {
        let [one, zero] = [1, 0].map(|value| Field::Fixed { value });
        for fields in [two_reads([one, one]), read_through_write([one, zero])] {
            let walks = Walks::of(&fields, WIDTH);
            let (lemma, whole) = (walks.chosen().unwrap(), walks.whole().unwrap());
            assert_eq!(judge_lemma(&fields, WIDTH, &lemma), Ok(()), "{fields:?}");
            found(judge_lemma(&fields, WIDTH, &whole), "compares two fixed numbers");
        }
    }

    /// The clauses of one query, judged as those of another with its terms.
    fn judge_written(asked: &[Field], fields: &[Field]) -> Result<(), String> {
        let written = second::clauses_at_width(&encode(asked), MAX_CLAUSE_NUMBERS, WIDTH).unwrap();
        let walks = Walks::of(fields, WIDTH);
        let (lemma, whole) = (walks.chosen().unwrap(), walks.whole().unwrap());
        judge_clauses(fields, WIDTH, &lemma, &whole, &written)
    }

    #[test]
    fn clauses_without_a_comparison_that_stays_are_found() {
        let [fixed, free] = [Field::Fixed { value: 1 }, Field::Base { value: 1 }];
        let (all, one) = (two_reads([fixed, fixed]), two_reads([fixed, free]));
        assert_eq!(judge_written(&all, &all), Ok(()));
        assert_eq!(judge_written(&one, &one), Ok(()));
        found(judge_written(&all, &one), "clauses and lemma part");
        found(judge_written(&one, &all), "strange variable");
    }

    /// Of each lemma every literal left out, and every comparison that 02
    /// leaves out put back: none of these passes.
    #[test]
    fn of_random_queries_the_chosen_lemma_alone_passes() {
        let (mut false_somewhere, mut put_back) = (0, 0);
        for seed in 0..1_500 {
            let generator = if seed % 2 == 0 { tiny } else { ways };
            let fields = generator(&mut Random::new(seed), WIDTH, 12);
            let walks = Walks::of(&fields, WIDTH);
            let Some((lemma, whole)) = walks.chosen().zip(walks.whole()) else { continue };
            for literal in &lemma.premise {
                let less = lemma.clone().without(|one| one == literal);
                let wrong = judge_lemma(&fields, WIDTH, &less).expect_err("a literal too few");
                false_somewhere += usize::from(wrong.contains("fails in interpretation"));
            }
            for literal in whole.premise.iter().filter(|one| !lemma.premise.contains(one)) {
                let mut more = lemma.clone();
                more.premise.push(*literal);
                found(judge_lemma(&fields, WIDTH, &more), "compares two fixed numbers");
                assert!(matches!(literal, Literal::Equal(..) | Literal::Differ(..)));
                put_back += 1;
            }
        }
        assert!(false_somewhere > 200 && put_back > 20, "{false_somewhere} {put_back}");
    }
}
