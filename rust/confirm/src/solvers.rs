//! The two solvers: z3, one process that is asked again and again, and
//! cadical, one process for each formula.

use std::io::{BufRead, BufReader, Write};
use std::process::{Child, ChildStdin, ChildStdout, Command, Stdio};

/// What a solver says of a script or a formula.
#[derive(Clone, Copy, Debug, PartialEq, Eq)]
pub enum Said {
    Satisfiable,
    Unsatisfiable,
    /// It gave up, or did not understand.
    Neither,
}

/// How z3 goes about a script.
#[derive(Clone, Copy)]
pub enum Way {
    Usual,
    /// Everything taken as bits at once: of long clauses z3 is quicker so.
    Bits,
}

impl Way {
    fn check(self) -> &'static str {
        match self {
            Way::Usual => "(check-sat)",
            Way::Bits => "(check-sat-using (then simplify bit-blast sat))",
        }
    }
}

/// How long z3 may take over one script, in milliseconds.
const PATIENCE: u32 = 60_000;

/// Printed by z3 after each script, so that the end of its answer shows.
const END: &str = "end";

/// cadical's exit statuses.
const SATISFIABLE: i32 = 10;
const UNSATISFIABLE: i32 = 20;

pub struct Solvers {
    process: Child,
    input: ChildStdin,
    output: BufReader<ChildStdout>,
}

impl Solvers {
    pub fn start() -> Result<Solvers, String> {
        // Asked once, so that a missing one is told before anything is.
        cadical("p cnf 0 0\n")?;
        let mut process = Command::new("z3")
            .arg("-in")
            .stdin(Stdio::piped())
            .stdout(Stdio::piped())
            .spawn()
            .map_err(|error| format!("z3: {error}"))?;
        let input = process.stdin.take().ok_or("no pipe to z3")?;
        let output = BufReader::new(process.stdout.take().ok_or("no pipe from z3")?);
        Ok(Solvers { process, input, output })
    }

    /// Whether the script's assertions can hold together, in z3's eyes.
    pub fn script(&mut self, script: &str, way: Way) -> Result<Said, String> {
        let told = self.tell(script, way).map_err(|error| format!("z3: {error}"))?;
        match &told[..] {
            [answer] if answer == "sat" => Ok(Said::Satisfiable),
            [answer] if answer == "unsat" => Ok(Said::Unsatisfiable),
            [answer] if answer == "unknown" || answer == "timeout" => Ok(Said::Neither),
            _ => Err(format!("z3 did not understand: {told:?}")),
        }
    }

    fn tell(&mut self, script: &str, way: Way) -> std::io::Result<Vec<String>> {
        let options = format!("(reset)\n(set-option :timeout {PATIENCE})\n");
        let check = way.check();
        write!(self.input, "{options}{script}{check}\n(echo \"{END}\")\n")?;
        self.input.flush()?;
        let mut lines = Vec::new();
        loop {
            let mut line = String::new();
            if self.output.read_line(&mut line)? == 0 {
                return Err(std::io::Error::other("it ended"));
            }
            match line.trim_end() {
                END => return Ok(lines),
                line => lines.push(line.to_string()),
            }
        }
    }

    /// Whether the formula's clauses can hold together, in cadical's eyes.
    pub fn formula(&mut self, formula: &str) -> Result<Said, String> {
        cadical(formula)
    }
}

fn cadical(formula: &str) -> Result<Said, String> {
    let mut process = Command::new("cadical")
        .arg("-q")
        .stdin(Stdio::piped())
        .stdout(Stdio::null())
        .spawn()
        .map_err(|error| format!("cadical: {error}"))?;
    let mut input = process.stdin.take().ok_or("no pipe to cadical")?;
    input.write_all(formula.as_bytes()).map_err(|error| format!("cadical: {error}"))?;
    drop(input);
    let status = process.wait().map_err(|error| format!("cadical: {error}"))?;
    match status.code() {
        Some(SATISFIABLE) => Ok(Said::Satisfiable),
        Some(UNSATISFIABLE) => Ok(Said::Unsatisfiable),
        _ => Err(format!("cadical did not understand: {status}")),
    }
}

impl Drop for Solvers {
    fn drop(&mut self) {
        let _ = self.process.kill();
        let _ = self.process.wait();
    }
}
