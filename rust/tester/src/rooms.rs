//! How long an answer is, so that rooms can be chosen just around it.

use crate::request::Question;
use second::Checked;

/// The bytes or numbers that the question's full answer takes; 0 where a
/// check or the clauses write nothing, nothing for questions without a room.
pub fn answer_length(question: Question, query: &[u8]) -> Option<usize> {
    match question {
        Question::Check { .. } => Some(match second::check(query, usize::MAX) {
            Checked::Conflict { lemma, .. } => lemma.len(),
            _ => 0,
        }),
        Question::Clauses { .. } => {
            Some(second::clauses(query, usize::MAX).map_or(0, |written| written.numbers.len()))
        }
        Question::Verdict | Question::Lookup { .. } => None,
    }
}

/// The same question with another room.
pub fn with_room(question: Question, room: usize) -> Question {
    let room = room as u16;
    match question {
        Question::Check { .. } => Question::Check { room },
        Question::Clauses { .. } => Question::Clauses { room },
        Question::Verdict | Question::Lookup { .. } => question,
    }
}
