//! The product under test: something that answers requests. Here it is a
//! child process that is asked over pipes; `library.rs` has the other way.

use crate::expected::expected;
use crate::request::Request;
use std::io::{BufRead, BufReader, Write};
use std::process::{Child, ChildStdin, Command, Stdio};
use std::sync::mpsc::{channel, Receiver, RecvTimeoutError};
use std::time::Duration;

/// How long one answer may take before the child counts as stuck.
const PATIENCE: Duration = Duration::from_secs(120);

pub trait Product {
    /// One answer for each request, each of whole lines.
    fn answers(&mut self, requests: &[Request]) -> Vec<String>;

    /// The text that this product is to answer, by the second program.
    fn expected(&self, request: &Request) -> String {
        expected(request)
    }
}

pub struct ChildProduct {
    command: Vec<String>,
    running: Running,
}

struct Running {
    process: Child,
    input: ChildStdin,
    answers: Receiver<String>,
}

impl ChildProduct {
    pub fn start(command: &[String]) -> Result<ChildProduct, String> {
        let running = Running::start(command)?;
        Ok(ChildProduct { command: command.to_vec(), running })
    }

    /// The answers up to the first that does not come, and why it did not.
    fn some_answers(&mut self, requests: &[Request]) -> (Vec<String>, Option<&'static str>) {
        let bytes: Vec<u8> = requests.iter().flat_map(Request::bytes).collect();
        let Running { process, input, answers } = &mut self.running;
        std::thread::scope(|scope| {
            // Written beside the reading, so that neither pipe stalls; a child
            // that ends early shows in the reading.
            scope.spawn(move || input.write_all(&bytes).and_then(|()| input.flush()));
            let mut received = Vec::new();
            for _ in requests {
                match answers.recv_timeout(PATIENCE) {
                    Ok(answer) => received.push(answer),
                    Err(RecvTimeoutError::Disconnected) => return (received, Some("(ended)\n")),
                    Err(RecvTimeoutError::Timeout) => {
                        // Ends our own child, which also frees the writer.
                        let _ = process.kill();
                        return (received, Some("(no answer in time)\n"));
                    }
                }
            }
            (received, None)
        })
    }
}

impl Product for ChildProduct {
    fn answers(&mut self, requests: &[Request]) -> Vec<String> {
        let mut all = Vec::new();
        while all.len() < requests.len() {
            let (received, failure) = self.some_answers(&requests[all.len()..]);
            all.extend(received);
            if let Some(failure) = failure {
                all.push(failure.to_string());
                self.running.end();
                self.running = Running::start(&self.command).expect("it was started before");
            }
        }
        all
    }
}

impl Drop for ChildProduct {
    fn drop(&mut self) {
        self.running.end();
    }
}

impl Running {
    fn start(command: &[String]) -> Result<Running, String> {
        let (program, arguments) = command.split_first().ok_or("no product command")?;
        let mut process = Command::new(program)
            .args(arguments)
            .stdin(Stdio::piped())
            .stdout(Stdio::piped())
            .spawn()
            .map_err(|error| format!("{program}: {error}"))?;
        let input = process.stdin.take().ok_or("no pipe to the product")?;
        let output = process.stdout.take().ok_or("no pipe from the product")?;
        let (sender, answers) = channel();
        std::thread::spawn(move || {
            let mut lines = BufReader::new(output);
            while let Some(answer) = read_answer(&mut lines) {
                if sender.send(answer).is_err() {
                    return;
                }
            }
        });
        Ok(Running { process, input, answers })
    }

    fn end(&mut self) {
        let _ = self.process.kill();
        let _ = self.process.wait();
    }
}

/// The lines before the next closing line, or nothing at the end.
fn read_answer(lines: &mut impl BufRead) -> Option<String> {
    let mut answer = String::new();
    loop {
        let mut line = Vec::new();
        if lines.read_until(b'\n', &mut line).ok()? == 0 {
            return None;
        }
        if line == b".\n" {
            return Some(answer);
        }
        answer.push_str(&String::from_utf8_lossy(&line));
    }
}
