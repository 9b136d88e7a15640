//! A request to the product: the question, its parameters and the query, as
//! bytes of the pipe's protocol and as a line of text.

#[derive(Clone, Copy, Debug, PartialEq, Eq)]
pub enum Question {
    /// The verdict program's lines.
    Verdict,
    /// A check with an answer buffer of `room` bytes.
    Check { room: u16 },
    /// A lookup of one cell.
    Lookup { array: u64, index: u64 },
    /// The clauses into a run of `room` numbers.
    Clauses { room: u16 },
}

#[derive(Clone, Debug, PartialEq, Eq)]
pub struct Request {
    pub question: Question,
    pub query: Vec<u8>,
}

impl Request {
    /// One byte for the question, parameters, length, query.
    pub fn bytes(&self) -> Vec<u8> {
        let mut bytes = match self.question {
            Question::Verdict => vec![b'V'],
            Question::Check { room } => [&[b'K'][..], &room.to_be_bytes()].concat(),
            Question::Lookup { array, index } => {
                [&[b'L'][..], &array.to_be_bytes(), &index.to_be_bytes()].concat()
            }
            Question::Clauses { room } => [&[b'C'][..], &room.to_be_bytes()].concat(),
        };
        let length = u16::try_from(self.query.len()).expect("a query of at most 5,000 bytes");
        bytes.extend(length.to_be_bytes());
        bytes.extend(&self.query);
        bytes
    }
}

impl Question {
    pub fn line(&self) -> String {
        match self {
            Question::Verdict => "V".to_string(),
            Question::Check { room } => format!("K {room}"),
            Question::Lookup { array, index } => format!("L {array} {index}"),
            Question::Clauses { room } => format!("C {room}"),
        }
    }

    pub fn parse(line: &str) -> Option<Question> {
        let words: Vec<&str> = line.split_whitespace().collect();
        Some(match words[..] {
            ["V"] => Question::Verdict,
            ["K", room] => Question::Check { room: room.parse().ok()? },
            ["L", array, index] => {
                Question::Lookup { array: array.parse().ok()?, index: index.parse().ok()? }
            }
            ["C", room] => Question::Clauses { room: room.parse().ok()? },
            _ => return None,
        })
    }
}

pub fn hex(bytes: &[u8]) -> String {
    bytes.iter().map(|byte| format!("{byte:02x}")).collect()
}

/// The bytes of hex text, in which white space counts for nothing.
pub fn parse_hex(text: &str) -> Option<Vec<u8>> {
    let digits: Option<Vec<u32>> =
        text.chars().filter(|sign| !sign.is_whitespace()).map(|sign| sign.to_digit(16)).collect();
    let digits = digits?;
    let whole = digits.len() % 2 == 0;
    whole.then(|| digits.chunks(2).map(|pair| (pair[0] * 16 + pair[1]) as u8).collect())
}

#[cfg(test)]
mod tests {
    use super::*;

    #[test]
    fn questions_come_back_from_their_lines() {
        let questions = [
            Question::Verdict,
            Question::Check { room: 343 },
            Question::Lookup { array: 3, index: 4_294_967_295 },
            Question::Clauses { room: 12_625 },
        ];
        for question in questions {
            assert_eq!(Question::parse(&question.line()), Some(question));
        }
        assert_eq!(parse_hex("0a FF\n"), Some(vec![10, 255]));
        assert_eq!(parse_hex("0a F"), None);
    }

    #[test]
    fn a_request_is_question_parameters_length_query() {
        let question = Question::Lookup { array: 1, index: 258 };
        let bytes = Request { question, query: vec![3, 0, 0] }.bytes();
        let expected = [b'L', 0, 0, 0, 0, 0, 0, 0, 1, 0, 0, 0, 0, 0, 0, 1, 2, 0, 3, 3, 0, 0];
        assert_eq!(bytes, expected);
    }
}
