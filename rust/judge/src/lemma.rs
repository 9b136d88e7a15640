//! A lemma as the judge reads it from its bytes: a premise of literals and a
//! conclusion, true or false in an interpretation.

use crate::interpretation::Interpretation;

#[derive(Clone, Copy, Debug, PartialEq, Eq)]
pub enum Literal {
    Equal(u16, u16),
    Differ(u16, u16),
    True(u16),
    False(u16),
}

impl Literal {
    /// The two base terms of an "equal" or "differ".
    pub fn compared(&self) -> Option<(u16, u16)> {
        match *self {
            Literal::Equal(one, other) | Literal::Differ(one, other) => Some((one, other)),
            Literal::True(_) | Literal::False(_) => None,
        }
    }
}

#[derive(Clone, Debug, PartialEq, Eq)]
pub struct Lemma {
    pub premise: Vec<Literal>,
    pub conclusion: (u16, u16),
}

impl Lemma {
    /// The lemma of fields 21 to 24 closed by one field 25, or nothing.
    pub fn read(bytes: &[u8]) -> Option<Lemma> {
        let mut premise = Vec::new();
        let mut rest = bytes;
        loop {
            let (head, after) = rest.split_at_checked(3)?;
            let (value, after) = after.split_at_checked(usize::from(head[2]))?;
            let two = |at: usize| u16::from_be_bytes([value[at], value[at + 1]]);
            match head {
                [0x21, 0, 4] => premise.push(Literal::Equal(two(0), two(2))),
                [0x22, 0, 4] => premise.push(Literal::Differ(two(0), two(2))),
                [0x23, 0, 2] => premise.push(Literal::True(two(0))),
                [0x24, 0, 2] => premise.push(Literal::False(two(0))),
                [0x25, 0, 4] if after.is_empty() => {
                    return Some(Lemma { premise, conclusion: (two(0), two(2)) });
                }
                _ => return None,
            }
            rest = after;
        }
    }

    pub fn premise_holds(&self, terms: &Interpretation) -> bool {
        let base = |number: u16| terms.bases[usize::from(number)];
        let boolean = |number: u16| terms.booleans[usize::from(number)];
        self.premise.iter().all(|literal| match *literal {
            Literal::Equal(one, other) => base(one) == base(other),
            Literal::Differ(one, other) => base(one) != base(other),
            Literal::True(number) => boolean(number),
            Literal::False(number) => !boolean(number),
        })
    }

    pub fn conclusion_holds(&self, terms: &Interpretation) -> bool {
        let (one, other) = self.conclusion;
        terms.bases[usize::from(one)] == terms.bases[usize::from(other)]
    }

    pub fn holds(&self, terms: &Interpretation) -> bool {
        !self.premise_holds(terms) || self.conclusion_holds(terms)
    }

    /// The lemma without the literals of the premise that the test holds of.
    pub fn without(mut self, test: impl Fn(&Literal) -> bool) -> Lemma {
        self.premise.retain(|literal| !test(literal));
        self
    }

    /// The base terms that the lemma names, each once.
    pub fn bases(&self) -> Vec<u16> {
        let mut named = vec![self.conclusion.0, self.conclusion.1];
        for (one, other) in self.premise.iter().filter_map(Literal::compared) {
            named.extend([one, other]);
        }
        named.sort_unstable();
        named.dedup();
        named
    }

    /// The Booleans that the lemma names, each once.
    pub fn booleans(&self) -> Vec<u16> {
        let mut named = Vec::new();
        for literal in &self.premise {
            if let Literal::True(number) | Literal::False(number) = *literal {
                named.push(number);
            }
        }
        named.sort_unstable();
        named.dedup();
        named
    }
}
