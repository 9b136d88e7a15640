//! Faults injected into what a right product answers, to show that the tester
//! finds and shrinks them. Each is named by what goes wrong.

use crate::disturb::{
    with_cells_cut_off, with_last_byte_lost, with_pair_lost, with_sign_turned, without_equal,
    CELLS_LEFT,
};
use crate::expected::expected;
use crate::left_out::left_out;
use crate::mistake::mistaken;
use crate::product::Product;
use crate::request::{Question, Request};
use crate::rooms::answer_length;
use crate::rules::{lemma_by, lines, Rule};

#[derive(Clone, Copy, Debug, PartialEq, Eq)]
pub enum Fault {
    None,
    /// Conditionals lead to the other branch.
    BranchNotChosen,
    /// False equalities are walked like true ones.
    FalseEqualityFollowed,
    /// Writes are taken as array variables: no source, no edge.
    WriteTakenAsVariable,
    /// The literal "equal" is left out, since the two values agree.
    EqualLeftOut,
    /// The pairs of a conflict are one too few.
    PairLost,
    /// The last byte of the lemma is not written.
    LastByteLost,
    /// An answer that just fits is refused.
    RoomTooStrict,
    /// A term not yet given is reported a byte late.
    OffsetMoved,
    /// One literal of a clause has the other sign.
    SignTurned,
    /// A cell that no source reaches holds 1.
    EmptyCellFilled,
    /// Cells beyond the 48th index value of one array are missing.
    CellsCutOff,
    /// The path is a shortest walk, whatever its writes.
    ShortestWalk,
    /// The path has the fewest edges, and among those the fewest writes.
    EdgesBeforeWrites,
    /// Of the edges on such a path the highest-numbered is taken.
    HighestEdge,
    /// A comparison is left out where one of its terms is fixed.
    LeftOutByOne,
    /// A comparison of two fixed numbers is kept.
    KeptByTwo,
    /// A conclusion between two fixed numbers is left out.
    ConclusionLeftOut,
    /// A term counts as fixed where its guessed value is that of a fixed one.
    FixedByValue,
    /// A fixed number may be a witness.
    FixedAsWitness,
    /// The guess has 0 for a fixed number.
    FixedValueIgnored,
    /// A write whose literal is left out is no write of the path.
    LeftOutWriteUncounted,
}

pub const FAULTS: [Fault; 21] = [
    Fault::BranchNotChosen,
    Fault::FalseEqualityFollowed,
    Fault::WriteTakenAsVariable,
    Fault::EqualLeftOut,
    Fault::PairLost,
    Fault::LastByteLost,
    Fault::RoomTooStrict,
    Fault::OffsetMoved,
    Fault::SignTurned,
    Fault::EmptyCellFilled,
    Fault::CellsCutOff,
    Fault::ShortestWalk,
    Fault::EdgesBeforeWrites,
    Fault::HighestEdge,
    Fault::LeftOutByOne,
    Fault::KeptByTwo,
    Fault::ConclusionLeftOut,
    Fault::FixedByValue,
    Fault::FixedAsWitness,
    Fault::FixedValueIgnored,
    Fault::LeftOutWriteUncounted,
];

/// The bytes of an array variable, of a base term, and of a read.
const FIELD_BYTES: [usize; 3] = [3, 7, 11];

impl Fault {
    /// No query that shows the fault needs to be larger than this.
    pub fn small(self) -> usize {
        let [variable, base, read] = FIELD_BYTES;
        match self {
            Fault::CellsCutOff => variable + (CELLS_LEFT + 1) * (base + read),
            _ => 120,
        }
    }

    /// Whether the faulty copy leaves a literal out that is to stay, by fixed
    /// numbers.
    fn leaves_out(self) -> bool {
        matches!(self, Fault::LeftOutByOne | Fault::FixedByValue | Fault::ConclusionLeftOut)
    }

    /// The rule by which the faulty copy finds its path, if it has another.
    fn rule(self) -> Option<Rule> {
        match self {
            Fault::ShortestWalk => Some(Rule::FewestEdges),
            Fault::EdgesBeforeWrites => Some(Rule::EdgesBeforeWrites),
            Fault::HighestEdge => Some(Rule::HighestEdge),
            Fault::LeftOutWriteUncounted => Some(Rule::FewestComparisons),
            _ => None,
        }
    }
}

/// The second program as a product.
pub struct Reference;

impl Product for Reference {
    fn answers(&mut self, requests: &[Request]) -> Vec<String> {
        requests.iter().map(expected).collect()
    }
}

pub struct FaultyProduct<'a> {
    pub fault: Fault,
    pub right: &'a mut dyn Product,
}

impl Product for FaultyProduct<'_> {
    fn answers(&mut self, requests: &[Request]) -> Vec<String> {
        let mistaken = |request: &Request| Request {
            query: mistaken(self.fault, &request.query),
            ..request.clone()
        };
        let answers = self.right.answers(&requests.iter().map(mistaken).collect::<Vec<_>>());
        let disturbed = |(request, answer)| self.disturb(request, answer);
        requests.iter().zip(answers).map(disturbed).collect()
    }

    fn expected(&self, request: &Request) -> String {
        self.right.expected(request)
    }
}

impl FaultyProduct<'_> {
    /// The answer as the faulty copy gives it.
    fn disturb(&self, request: &Request, answer: String) -> String {
        if let Some(rule) = self.fault.rule() {
            return with_another_path(rule, request, answer);
        }
        match (self.fault, request.question) {
            (Fault::EqualLeftOut, Question::Verdict) => without_equal(&answer),
            (fault, Question::Verdict) if fault.leaves_out() => {
                left_out(fault, &request.query, &answer)
            }
            (Fault::PairLost, Question::Verdict) => with_pair_lost(&answer),
            (Fault::CellsCutOff, Question::Verdict) => with_cells_cut_off(&answer),
            (Fault::LastByteLost, Question::Check { .. }) => with_last_byte_lost(&answer),
            (Fault::RoomTooStrict, Question::Check { room }) => {
                let exact = answer_length(request.question, &request.query);
                let refused = format!("refused 10 0\n{}\n", "aa".repeat(usize::from(room)));
                if room > 0 && exact == Some(usize::from(room)) {
                    refused
                } else {
                    answer
                }
            }
            (Fault::OffsetMoved, _) => match answer.strip_prefix("refused 6 ") {
                Some(offset) => format!("refused 6 1{offset}"),
                None => answer,
            },
            (Fault::SignTurned, Question::Clauses { .. }) => with_sign_turned(&answer),
            (Fault::EmptyCellFilled, Question::Lookup { .. }) if answer == "0\n" => {
                "1\n".to_string()
            }
            _ => answer,
        }
    }
}

/// The verdict's lines with the lemma that this rule chooses.
fn with_another_path(rule: Rule, request: &Request, answer: String) -> String {
    match answer.split_once('\n') {
        Some((first, _))
            if first.starts_with("conflict") && request.question == Question::Verdict =>
        {
            let lemma = lemma_by(rule, &request.query).expect("a conflict has a lemma");
            format!("{first}\n{}", lines(&lemma))
        }
        _ => answer,
    }
}
