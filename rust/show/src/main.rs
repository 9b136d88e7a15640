//! `zunidelo-show`: reads a query from a file or standard input, and prints
//! its fields and its verdict in words, its graph, or its hex text.

use show::{dot, from_hex, show, to_hex};
use std::error::Error;
use std::io::{self, Read, Write};
use std::process::ExitCode;
use std::{env, fs};

const USAGE: &str = "\
usage: zunidelo-show [--hex] [--dot | --to-hex | --from-hex] [FILE]
  reads a query from FILE, or from standard input, and prints its fields and its verdict
  --hex        the input is hex text, in which white space and # comments are allowed
  --dot        prints the array terms and edges as a Graphviz graph instead
  --to-hex     prints the query as hex text with comments instead
  --from-hex   reads hex text and writes the query's bytes instead";

/// What is written of a query.
#[derive(Clone, Copy)]
enum Form {
    Words,
    Dot,
    Hex,
    Bytes,
}

struct Arguments {
    reads_hex: bool,
    form: Form,
    file: Option<String>,
}

/// The arguments, or nothing where they are not as the usage says.
fn arguments() -> Option<Arguments> {
    let mut arguments = Arguments { reads_hex: false, form: Form::Words, file: None };
    let mut forms = Vec::new();
    for word in env::args().skip(1) {
        match word.as_str() {
            "--hex" => arguments.reads_hex = true,
            "--dot" => forms.push(Form::Dot),
            "--to-hex" => forms.push(Form::Hex),
            "--from-hex" => {
                arguments.reads_hex = true;
                forms.push(Form::Bytes);
            }
            _ if word.starts_with("--") || arguments.file.is_some() => return None,
            _ => arguments.file = Some(word),
        }
    }
    if forms.len() > 1 {
        return None;
    }
    arguments.form = forms.pop().unwrap_or(Form::Words);
    Some(arguments)
}

fn input(file: Option<&str>) -> Result<Vec<u8>, Box<dyn Error>> {
    if let Some(path) = file {
        return fs::read(path).map_err(|error| format!("{path}: {error}").into());
    }
    let mut bytes = Vec::new();
    io::stdin().read_to_end(&mut bytes)?;
    Ok(bytes)
}

fn run(arguments: &Arguments) -> Result<(), Box<dyn Error>> {
    let mut query = input(arguments.file.as_deref())?;
    if arguments.reads_hex {
        query = from_hex(&String::from_utf8_lossy(&query))?;
    }
    let output = match arguments.form {
        Form::Words => show(&query).into_bytes(),
        Form::Dot => dot(&query).into_bytes(),
        Form::Hex => to_hex(&query).into_bytes(),
        Form::Bytes => query,
    };
    match io::stdout().write_all(&output) {
        // A reader that has seen enough, such as `head`, is no fault.
        Err(error) if error.kind() == io::ErrorKind::BrokenPipe => Ok(()),
        written => Ok(written?),
    }
}

fn main() -> ExitCode {
    let Some(arguments) = arguments() else {
        eprintln!("{USAGE}");
        return ExitCode::from(2);
    };
    match run(&arguments) {
        Ok(()) => ExitCode::SUCCESS,
        Err(error) => {
            eprintln!("zunidelo-show: {error}");
            ExitCode::from(2)
        }
    }
}
