//! A front of an accepted query: its first fields, cut from those that follow.
//! It is accepted, and what is answered about it is confirmed of the whole (02,
//! E7).

use crate::answers::lemma_of;
use crate::lemma::Lemma;
use judge::field::{encode, Field};
use tester::request::hex;
use zunidelo::Refusal;

/// A proper front: the whole has at least one field more.
#[derive(Clone)]
pub struct Front {
    /// How many of the whole's fields it has.
    pub length: usize,
    /// Of a front in conflict.
    pub lemma: Option<Lemma>,
}

impl Front {
    /// Of a query in conflict the shortest front that is in conflict too, of a
    /// consistent one the greater half; nothing where this is the whole.
    pub fn of(whole: &[Field], consistent: bool) -> Option<Front> {
        let length = if consistent { whole.len().div_ceil(2) } else { shortest_in_conflict(whole) };
        (length < whole.len()).then(|| Front { length, lemma: lemma(&whole[..length]) })
    }
}

/// How many fields the shortest front in conflict has, of a query in conflict.
/// Since a conflict stays, the fronts are bisected.
fn shortest_in_conflict(whole: &[Field]) -> usize {
    let lengths: Vec<usize> = (0..=whole.len()).collect();
    lengths.partition_point(|length| lemma(&whole[..*length]).is_none())
}

fn lemma(front: &[Field]) -> Option<Lemma> {
    let query = encode(front);
    let refused =
        |refusal: Refusal| panic!("a front is not accepted: {refusal}\nquery {}", hex(&query));
    lemma_of(&query).unwrap_or_else(refused)
}

#[cfg(test)]
mod tests {
    use super::*;

    /// In conflict as a whole: two base terms of one value, two reads that differ.
    const CONFLICT: [Field; 5] = [
        Field::Base { value: 5 },
        Field::Base { value: 5 },
        Field::Variable,
        Field::Read { array: 0, index: 0, value: 7 },
        Field::Read { array: 0, index: 1, value: 9 },
    ];

    #[test]
    fn the_front_of_a_conflict_is_the_shortest_in_conflict() {
        assert!(Front::of(&CONFLICT, false).is_none());
        for more in 1..20 {
            let whole = [&CONFLICT[..], &vec![Field::Boolean { truth: 1 }; more]].concat();
            let front = Front::of(&whole, false).expect("a proper front");
            assert_eq!(front.length, CONFLICT.len());
            let lemma = front.lemma.expect("a front in conflict");
            assert_eq!(lemma.formula(), "(=> (and true (= b0 b1)) (= b2 b3))");
        }
    }

    #[test]
    fn the_front_of_a_consistent_query_is_its_greater_half() {
        for (fields, expected) in [(0, None), (1, None), (2, Some(1)), (3, Some(2)), (4, Some(2))] {
            let front = Front::of(&CONFLICT[..fields], true);
            assert!(front.iter().all(|front| front.lemma.is_none()));
            assert_eq!(front.map(|front| front.length), expected);
        }
    }
}
