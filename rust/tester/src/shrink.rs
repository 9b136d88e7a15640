//! Makes a request on which the answers differ smaller, while they differ:
//! drops fields, lessens numbers, cuts bytes.

use crate::compare::{compare, Comparison};
use crate::drop_fields::{without, Orphans};
use crate::product::Product;
use crate::request::{Question, Request};
use crate::rooms::{answer_length, with_room};
use judge::field::{decode, encode, Field};

/// How many candidates are tried before the shrinking stops where it is.
const MOST_TRIES: usize = 20_000;

/// How many candidates are asked about at once.
const BATCH: usize = 32;

/// Queries longer than this are not shrunk byte by byte, nor are their
/// numbers lessened: it would take long, and they would be hardly plainer.
const LONG: usize = 200;

/// The smallest difference found from this one by shrinking it.
pub fn shrink(product: &mut dyn Product, mut difference: Comparison) -> Comparison {
    let mut shrinker = Shrinker { product, tries: 0 };
    let mut before = None;
    while before != Some(weight(&difference.request)) {
        before = Some(weight(&difference.request));
        difference = shrinker.drop_runs(difference);
        for way in [without_bytes, lessened, with_lesser_question] {
            while let Some(smaller) = shrinker.first(way(&difference.request), &difference) {
                difference = smaller;
            }
        }
    }
    difference
}

struct Shrinker<'a> {
    product: &'a mut dyn Product,
    tries: usize,
}

impl Shrinker<'_> {
    /// Drops half the fields while it can, then a quarter, down to one.
    fn drop_runs(&mut self, mut difference: Comparison) -> Comparison {
        let mut length = decode(&difference.request.query).0.len();
        while length > 0 {
            match self.first(without_runs(&difference.request, length), &difference) {
                Some(smaller) => difference = smaller,
                None => length /= 2,
            }
        }
        difference
    }

    /// The first candidate that shows a difference. A candidate must have a
    /// lesser weight, so that shrinking ends.
    fn first(&mut self, mut candidates: Vec<Request>, than: &Comparison) -> Option<Comparison> {
        candidates.retain(|candidate| weight(candidate) < weight(&than.request));
        for batch in candidates.chunks(BATCH) {
            if self.tries >= MOST_TRIES {
                return None;
            }
            self.tries += batch.len();
            let mut comparisons = compare(self.product, batch).into_iter();
            if let Some(difference) = comparisons.find(Comparison::differs) {
                return Some(difference);
            }
        }
        None
    }
}

/// The same question about other queries, also with a room that their
/// answers just fit, or just do not.
fn about(request: &Request, queries: Vec<Vec<u8>>) -> Vec<Request> {
    let question = request.question;
    let mut requests = Vec::new();
    for query in queries {
        if let Some(length) = answer_length(question, &query).filter(|length| *length > 0) {
            for room in [length, length - 1] {
                let question = with_room(question, room);
                requests.push(Request { question, query: query.clone() });
            }
        }
        requests.push(Request { question, query });
    }
    requests
}

fn weight(request: &Request) -> (usize, u64, u64) {
    let bytes = request.query.iter().map(|byte| u64::from(*byte)).sum();
    let parameters = match request.question {
        Question::Verdict => 0,
        Question::Check { room } | Question::Clauses { room } => u64::from(room),
        Question::Lookup { array, index } => array.saturating_add(index),
    };
    (request.query.len(), bytes, parameters)
}

/// Without a run of so many fields, the last one first.
fn without_runs(request: &Request, length: usize) -> Vec<Request> {
    let (fields, rest) = decode(&request.query);
    let mut queries = Vec::new();
    for start in (0..fields.len()).step_by(length).rev() {
        let dropped = start..(start + length).min(fields.len());
        for orphans in [Orphans::Go, Orphans::Adopted] {
            let stay = without(&fields, dropped.clone(), orphans);
            queries.push([encode(&stay), rest.to_vec()].concat());
        }
    }
    about(request, queries)
}

/// Each field in turn with one of its numbers less: 0, half, or one less. A
/// fixed number may become a free term: where the answers still differ, that it
/// was fixed did not matter.
fn lessened(request: &Request) -> Vec<Request> {
    if request.query.len() > LONG {
        return Vec::new();
    }
    let (fields, rest) = decode(&request.query);
    let mut queries = Vec::new();
    for (place, field) in fields.iter().enumerate() {
        for lesser in lesser_fields(field) {
            let mut changed = fields.clone();
            changed[place] = lesser;
            queries.push([encode(&changed), rest.to_vec()].concat());
        }
    }
    about(request, queries)
}

fn lesser_fields(field: &Field) -> Vec<Field> {
    let mut lesser = Vec::new();
    if let Field::Fixed { value } = *field {
        lesser.push(Field::Base { value });
    }
    if let Some(value) = field.value() {
        let values = [0, 1, value / 2, value.saturating_sub(1)];
        lesser.extend(values.map(|less| field.with_value(less)));
    }
    let names = field.clone().names().len();
    for place in 0..names {
        for divisor in [u16::MAX, 2] {
            let mut changed = *field;
            *changed.names()[place].1 /= divisor;
            lesser.push(changed);
        }
        let mut changed = *field;
        let number = &mut *changed.names()[place].1;
        *number = number.saturating_sub(1);
        lesser.push(changed);
    }
    lesser
}

/// Cut in half, by one byte, or with one byte zero or gone; of a long query
/// the bytes after its well-formed fields alone are tried one by one.
fn without_bytes(request: &Request) -> Vec<Request> {
    let query = &request.query;
    let mut queries = vec![query[..query.len() / 2].to_vec()];
    queries.extend(query.split_last().map(|(_, cut)| cut.to_vec()));
    let start = if query.len() > LONG { query.len() - decode(query).1.len() } else { 0 };
    for place in start..query.len() {
        queries.push([&query[..place], &query[place + 1..]].concat());
        let mut changed = query.to_vec();
        changed[place] = 0;
        queries.push(changed);
    }
    about(request, queries)
}

fn with_lesser_question(request: &Request) -> Vec<Request> {
    let query = &request.query;
    let questions = lesser_questions(request.question).into_iter();
    questions.map(|question| Request { question, query: query.clone() }).collect()
}

fn lesser_questions(question: Question) -> Vec<Question> {
    match question {
        Question::Verdict => vec![],
        Question::Check { room } => {
            lesser(u64::from(room)).map(|room| Question::Check { room: room as u16 }).to_vec()
        }
        Question::Clauses { room } => {
            lesser(u64::from(room)).map(|room| Question::Clauses { room: room as u16 }).to_vec()
        }
        Question::Lookup { array, index } => {
            let mut questions =
                lesser(array).map(|array| Question::Lookup { array, index }).to_vec();
            questions.extend(lesser(index).map(|index| Question::Lookup { array, index }));
            questions
        }
    }
}

fn lesser(number: u64) -> [u64; 3] {
    [0, number / 2, number.saturating_sub(1)]
}

#[cfg(test)]
mod tests {
    use super::*;
    use crate::fault::{Fault, FaultyProduct, Reference};

    /// How many fixed numbers are left where K1 of two fixed indices is shrunk.
    fn fixed_left(fault: Fault) -> usize {
        let read = |index: u16, value: u32| Field::Read { array: 0, index, value };
        let index = Field::Fixed { value: 5 };
        let query = encode(&[index, index, Field::Variable, read(0, 7), read(1, 9)]);
        let product = &mut FaultyProduct { fault, right: &mut Reference };
        let asked = compare(product, &[Request { question: Question::Verdict, query }]);
        let difference = asked.into_iter().find(Comparison::differs).expect("the fault shows");
        let small = shrink(product, difference).request.query;
        decode(&small).0.iter().filter(|field| field.is_fixed()).count()
    }

    #[test]
    fn a_number_stays_fixed_only_where_the_difference_needs_it() {
        assert_eq!(fixed_left(Fault::PairLost), 0);
        assert_eq!(fixed_left(Fault::KeptByTwo), 2);
    }
}
