//! What the product answers about a query: all that a solver can confirm.

use crate::front::Front;
use crate::lemma::{Lemma, Literal};
use judge::field::{decode, Field, Series};
use tester::library::index_values;
use zunidelo::{Clauses, Refusal, Verdict};

/// Cells of an array, by index; everywhere else it holds 0.
pub type Memory = Vec<(u32, u32)>;

#[derive(Clone)]
pub struct Answers {
    pub fields: Vec<Field>,
    pub consistent: bool,
    /// Of a consistent query: each array of the model.
    pub model: Option<Vec<Memory>>,
    /// Of a query in conflict.
    pub lemma: Option<Lemma>,
    pub clauses: Option<Clauses>,
    /// A proper front, with what is to be confirmed of the whole.
    pub front: Option<Front>,
}

/// Asks the library; a query that it refuses leaves nothing to confirm.
pub fn ask(query: &[u8]) -> Result<Answers, Refusal> {
    let lemma = lemma_of(query)?;
    let consistent = lemma.is_none();
    let (fields, _) = decode(query);
    let model = if consistent { Some(model(query, &fields)?) } else { None };
    let clauses = if consistent { None } else { Some(zunidelo::clauses(query)?) };
    let front = Front::of(&fields, consistent);
    Ok(Answers { fields, consistent, model, lemma, clauses, front })
}

/// The lemma of a query in conflict, and nothing of a consistent one.
pub fn lemma_of(query: &[u8]) -> Result<Option<Lemma>, Refusal> {
    Ok(match zunidelo::check(query)? {
        Verdict::Consistent { .. } => None,
        Verdict::Conflict { lemma, .. } => Some(taken(&lemma)),
    })
}

/// Every array, looked up at every index that a source has.
fn model(query: &[u8], fields: &[Field]) -> Result<Vec<Memory>, Refusal> {
    let indices = index_values(fields);
    let mut model = Vec::new();
    for array in 0..array_count(fields) as u64 {
        let mut memory = Memory::new();
        for index in &indices {
            let value = zunidelo::lookup(query, array, u64::from(*index))?;
            memory.push((*index, u32::try_from(value).expect("a value has 32 bits")));
        }
        model.push(memory);
    }
    Ok(model)
}

pub fn array_count(fields: &[Field]) -> usize {
    fields.iter().filter(|field| field.gives() == Series::Array).count()
}

fn taken(lemma: &zunidelo::Lemma) -> Lemma {
    let (last, premise) = lemma.literals.split_last().expect("a lemma has a conclusion");
    let premise = premise.iter().map(literal).collect();
    Lemma { premise, conclusion: literal(last) }
}

fn literal(literal: &zunidelo::Literal) -> Literal {
    match *literal {
        zunidelo::Literal::Equal { first, later } => Literal::Equal(first, later),
        zunidelo::Literal::Differ { first, write } => Literal::Differ(first, write),
        zunidelo::Literal::True { boolean } => Literal::True(boolean),
        zunidelo::Literal::False { boolean } => Literal::False(boolean),
        zunidelo::Literal::Conclusion { first, later } => Literal::Equal(first, later),
    }
}
