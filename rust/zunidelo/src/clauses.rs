//! The clauses of a lemma, each a list of its own, and their printed lines.

use std::fmt;

/// Clauses that say exactly the lemma. A literal is the number of a variable,
/// or the number's negative. The fresh variables are to be renumbered, as
/// [`clauses`](crate::clauses()) says.
#[derive(Debug, Clone, PartialEq, Eq, Hash)]
pub struct Clauses {
    /// How many variables there are, used or not: 32 for each base term, one
    /// for each Boolean, then the fresh ones.
    pub variables: usize,
    /// The clauses in order, without the zeros that close them.
    pub clauses: Vec<Vec<i32>>,
}

impl Clauses {
    /// The clauses of a run of numbers in which 0 closes each.
    pub(crate) fn split(variables: usize, numbers: &[i32]) -> Clauses {
        let run = numbers.strip_suffix(&[0]).expect("0 closes the last clause");
        let clauses = run.split(|number| *number == 0).map(<[i32]>::to_vec).collect();
        Clauses { variables, clauses }
    }
}

/// The clause program's lines, each with its newline: `p cnf` variables
/// clauses, then a clause a line, closed by 0. This is the DIMACS format.
impl fmt::Display for Clauses {
    fn fmt(&self, formatter: &mut fmt::Formatter) -> fmt::Result {
        writeln!(formatter, "p cnf {} {}", self.variables, self.clauses.len())?;
        for clause in &self.clauses {
            clause.iter().try_for_each(|number| write!(formatter, "{number} "))?;
            writeln!(formatter, "0")?;
        }
        Ok(())
    }
}
