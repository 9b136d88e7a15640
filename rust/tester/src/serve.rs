//! The child's side of the protocol, answered by the second program: a model
//! for the product's own child, and a test of the pipes.

use crate::expected::expected;
use crate::request::{Question, Request};
use std::io::{self, BufReader, BufWriter, Read, Write};

pub fn serve() -> io::Result<()> {
    let mut input = BufReader::new(io::stdin().lock());
    let mut output = BufWriter::new(io::stdout().lock());
    while let Some(request) = read_request(&mut input)? {
        writeln!(output, "{}.", expected(&request))?;
        output.flush()?;
    }
    Ok(())
}

/// The next request, or nothing at the end of the input.
fn read_request(input: &mut impl Read) -> io::Result<Option<Request>> {
    let mut letter = [0];
    if input.read(&mut letter)? == 0 {
        return Ok(None);
    }
    let question = match letter[0] {
        b'V' => Question::Verdict,
        b'K' => Question::Check { room: read_two(input)? },
        b'L' => Question::Lookup { array: read_eight(input)?, index: read_eight(input)? },
        b'C' => Question::Clauses { room: read_two(input)? },
        _ => return Err(io::Error::other("unknown question")),
    };
    let mut query = vec![0; usize::from(read_two(input)?)];
    input.read_exact(&mut query)?;
    Ok(Some(Request { question, query }))
}

fn read_two(input: &mut impl Read) -> io::Result<u16> {
    let mut bytes = [0; 2];
    input.read_exact(&mut bytes)?;
    Ok(u16::from_be_bytes(bytes))
}

fn read_eight(input: &mut impl Read) -> io::Result<u64> {
    let mut bytes = [0; 8];
    input.read_exact(&mut bytes)?;
    Ok(u64::from_be_bytes(bytes))
}
