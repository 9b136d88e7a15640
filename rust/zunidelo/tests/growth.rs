//! Queries cut between two fields (02, E7): each front is accepted, its conflict
//! and its lemma are the whole's too, and the memories of a consistent whole fit
//! it. Cut anywhere else a query is refused.

mod stored;

use judge::field::{decode, Field, Series};
use judge::interpretation::Interpretation;
use judge::lemma::Lemma;
use judge::tiny::base_values;
use std::collections::{BTreeMap, BTreeSet};
use zunidelo::{check, check_into, lookup, Checked, Refusal, Verdict, LEMMA_BYTES};

const WIDTH: u32 = 32;

/// A query with its name.
type Named = (String, Vec<u8>);

/// The stored queries that are accepted, and each of them grown by the fields
/// of each, where that is accepted.
fn wholes() -> Vec<Named> {
    let is_accepted = |(_, query): &Named| check(query).is_ok();
    let mut wholes = stored::queries();
    wholes.retain(is_accepted);
    let grow = |(name, query): &Named, (other, fields): &Named| {
        (format!("{name} and {other}"), [&query[..], fields].concat())
    };
    let grown = wholes.iter().flat_map(|one| wholes.iter().map(move |other| grow(one, other)));
    let grown: Vec<Named> = grown.filter(is_accepted).collect();
    wholes.extend(grown);
    wholes
}

fn is_in_conflict(name: &str, query: &[u8]) -> bool {
    match check(query) {
        Ok(verdict) => matches!(verdict, Verdict::Conflict { .. }),
        Err(refusal) => panic!("{name}, its first {} bytes: {refusal}", query.len()),
    }
}

/// Where each field begins, by the lengths in the heads, and the query's end.
fn cuts(query: &[u8]) -> Vec<usize> {
    let mut cuts = vec![0];
    let mut place = 0;
    while place < query.len() {
        place += 3 + usize::from(u16::from_be_bytes([query[place + 1], query[place + 2]]));
        cuts.push(place);
    }
    cuts
}

fn fronts(whole: &[u8]) -> Vec<&[u8]> {
    cuts(whole).into_iter().map(|cut| &whole[..cut]).collect()
}

#[test]
fn every_front_is_accepted_and_a_conflict_stays() {
    let (mut consistent, mut in_conflict) = (0, 0);
    for (name, whole) in wholes() {
        let mut conflicts: Vec<bool> =
            fronts(&whole).into_iter().map(|front| is_in_conflict(&name, front)).collect();
        assert!(conflicts.is_sorted(), "{name}: {conflicts:?}");
        conflicts.pop();
        in_conflict += conflicts.iter().filter(|conflict| **conflict).count();
        consistent += conflicts.iter().filter(|conflict| !**conflict).count();
    }
    println!("proper fronts: {consistent} consistent, {in_conflict} in conflict");
    assert!(consistent >= 1000 && in_conflict >= 1000);
}

fn lemma(query: &[u8]) -> Option<Lemma> {
    let mut answer = [0; LEMMA_BYTES];
    match check_into(query, &mut answer).expect("an accepted query") {
        Checked::Consistent { .. } => None,
        Checked::Conflict { length, .. } => {
            Some(Lemma::read(&answer[..length]).expect("fields 21 to 25"))
        }
    }
}

#[test]
fn the_lemma_of_a_front_rules_the_wholes_guess_out() {
    let (mut proper, mut others) = (0, 0);
    for (name, whole) in wholes() {
        let guess = Interpretation::assigned(&decode(&whole).0, WIDTH);
        let wholes_lemma = lemma(&whole);
        for front in fronts(&whole) {
            let Some(lemma) = lemma(front) else { continue };
            assert!(!lemma.holds(&guess), "{name}, its first {} bytes: {lemma:?}", front.len());
            proper += usize::from(front.len() < whole.len());
            others += usize::from(wholes_lemma.as_ref() != Some(&lemma));
        }
    }
    println!("lemmas of proper fronts: {proper}, {others} of them not the whole's");
    assert!(proper >= 1000 && others >= 100);
}

#[test]
fn a_grown_query_may_have_another_lemma() {
    let printed = |query: &[u8]| match check(query) {
        Ok(Verdict::Conflict { lemma, .. }) => lemma.to_string(),
        other => panic!("no conflict: {other:?}"),
    };
    let whole = stored::query("around-a-write");
    assert_eq!(printed(fronts(&whole)[8]), "ne 0 1\nthen 3 4\n");
    assert_eq!(printed(&whole), "true 0\ntrue 1\nthen 3 4\n");
}

/// What the lookup gives of a consistent query at the values of its base terms.
/// These are all indices that a source has: everywhere else its arrays hold 0.
struct Memories {
    indices: Vec<u32>,
    /// By array term, a value for each of the indices.
    cells: Vec<Vec<u32>>,
}

impl Memories {
    fn of(query: &[u8]) -> Memories {
        let (fields, _) = decode(query);
        let indices: BTreeSet<u32> = base_values(&fields).into_iter().collect();
        let indices: Vec<u32> = indices.into_iter().collect();
        let arrays = fields.iter().filter(|field| field.gives() == Series::Array).count() as u64;
        let cell = |array: u64, index: &u32| {
            let value = lookup(query, array, u64::from(*index)).expect("a cell");
            u32::try_from(value).expect("a value has 32 bits")
        };
        let row = |array: u64| indices.iter().map(|index| cell(array, index)).collect();
        Memories { cells: (0..arrays).map(row).collect(), indices }
    }

    fn at(&self, array: u16, index: u32) -> u32 {
        let place = self.indices.binary_search(&index).expect("the value of a base term");
        self.cells[usize::from(array)][place]
    }

    /// Whether the two arrays agree at every index, or at every index but one.
    fn agree(&self, one: u16, other: u16, but_at: Option<u32>) -> bool {
        let [one, other] = [one, other].map(|array| &self.cells[usize::from(array)]);
        let mut cells = self.indices.iter().zip(one.iter().zip(other));
        cells.all(|(index, (one, other))| one == other || but_at == Some(*index))
    }

    /// Whether they are an interpretation of the fields' terms with their guess.
    fn fit(&self, fields: &[Field]) -> bool {
        let guess = Interpretation::assigned(fields, WIDTH);
        let base = |number: u16| guess.bases[usize::from(number)];
        let mut arrays = 0;
        fields.iter().all(|field| {
            let own = arrays;
            arrays += u16::from(field.gives() == Series::Array);
            match *field {
                Field::Write { array, index, value } => {
                    self.at(own, base(index)) == base(value)
                        && self.agree(own, array, Some(base(index)))
                }
                Field::Conditional { boolean, if_true, if_false } => {
                    let chosen =
                        if guess.booleans[usize::from(boolean)] { if_true } else { if_false };
                    self.agree(own, chosen, None)
                }
                Field::Read { array, index, value } => self.at(array, base(index)) == value,
                Field::Equality { left, right, truth, .. } => {
                    self.agree(left, right, None) == (truth == 1)
                }
                _ => true,
            }
        })
    }
}

/// The query, or what it was before its conflict arose.
fn longest_consistent<'a>(name: &str, query: &'a [u8]) -> &'a [u8] {
    let mut fronts = fronts(query).into_iter();
    fronts.rfind(|front| !is_in_conflict(name, front)).expect("the empty front is consistent")
}

#[test]
fn the_memories_of_a_consistent_whole_fit_every_front() {
    let mut held = BTreeMap::new();
    for (name, query) in wholes() {
        let whole = longest_consistent(&name, &query);
        let memories = Memories::of(whole);
        for front in fronts(whole) {
            let (fields, _) = decode(front);
            assert!(memories.fit(&fields), "{name}, its first {} bytes", front.len());
        }
        for field in decode(whole).0 {
            let truth = matches!(field, Field::Equality { truth: 1, .. });
            *held.entry((field.bytes()[0], truth)).or_insert(0) += 1;
        }
    }
    println!("fields that the memories fit, by tag and an equality's truth: {held:?}");
    assert!(held.len() == 9 && held.values().all(|count| *count >= 10), "{held:?}");
}

#[test]
fn cut_inside_a_field_a_query_is_refused_by_2_there() {
    let mut refused = 0;
    for (name, whole) in wholes() {
        for field in cuts(&whole).windows(2) {
            for cut in field[0] + 1..field[1] {
                let expected = Err(Refusal::CutOff { offset: field[0] });
                assert_eq!(check(&whole[..cut]), expected, "{name}, its first {cut} bytes");
                refused += 1;
            }
        }
    }
    println!("refused: {refused}");
    assert!(refused >= 10_000);
}
