//! A lemma as this program holds it, so that faults can be put into it, and
//! in z3's language.

#[derive(Clone, Copy, Debug, PartialEq, Eq)]
pub enum Literal {
    Equal(usize, usize),
    Differ(usize, usize),
    True(usize),
    False(usize),
}

/// If all of the premise, then the conclusion.
#[derive(Clone, Debug)]
pub struct Lemma {
    pub premise: Vec<Literal>,
    pub conclusion: Literal,
}

impl Literal {
    pub fn denied(self) -> Literal {
        match self {
            Literal::Equal(one, other) => Literal::Differ(one, other),
            Literal::Differ(one, other) => Literal::Equal(one, other),
            Literal::True(boolean) => Literal::False(boolean),
            Literal::False(boolean) => Literal::True(boolean),
        }
    }

    fn formula(self) -> String {
        match self {
            Literal::Equal(one, other) => format!("(= b{one} b{other})"),
            Literal::Differ(one, other) => format!("(distinct b{one} b{other})"),
            Literal::True(boolean) => format!("m{boolean}"),
            Literal::False(boolean) => format!("(not m{boolean})"),
        }
    }
}

impl Lemma {
    pub fn formula(&self) -> String {
        let premise: Vec<String> = self.premise.iter().map(|literal| literal.formula()).collect();
        let conclusion = self.conclusion.formula();
        format!("(=> (and true {}) {conclusion})", premise.join(" "))
    }
}
