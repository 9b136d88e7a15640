//! Shows that the tester works: no difference without a fault, and for each
//! injected fault a difference, shrunk, kept and found again from its file.

use crate::fault::{Fault, FaultyProduct, Reference, FAULTS};
use crate::library::Library;
use crate::product::Product;
use crate::run::Run;
use crate::summary::Summary;
use std::path::Path;

/// Tries the faults in the second program's answers, then in the library's.
pub fn selftest(seed: u64, count: u64) -> Result<(), String> {
    let in_second = try_faults("second", &mut Reference, seed, count)?;
    let in_library = try_faults("library", &mut Library, seed, count)?;
    println!("{} faults found, {in_library} of them in the library", in_second + in_library);
    Ok(())
}

/// Answers how many faults were found.
fn try_faults(name: &str, right: &mut dyn Product, seed: u64, count: u64) -> Result<usize, String> {
    let directory =
        Path::new(concat!(env!("CARGO_MANIFEST_DIR"), "/../target/selftest")).join(name);
    run(Fault::None, right, seed, count, &directory.join("None"))?;
    let mut found = 0;
    for fault in FAULTS {
        let cases = directory.join(format!("{fault:?}"));
        let _ = std::fs::remove_dir_all(&cases);
        let largest = run(fault, right, seed, count, &cases)?;
        // Once more with no random query at all: the kept file must show it.
        run(fault, right, seed, 0, &cases)?;
        println!("{fault:?}: found, shrunk to at most {largest} bytes, kept and found again\n");
        found += 1;
    }
    Ok(found)
}

/// Runs a faulty copy; the answer is the largest shrunk query's length.
fn run(
    fault: Fault,
    right: &mut dyn Product,
    seed: u64,
    count: u64,
    cases: &Path,
) -> Result<usize, String> {
    let product = &mut FaultyProduct { fault, right };
    let summary = Summary::default();
    let found = Run { product, seed, count, cases, wide_index: false, summary }.all()?;
    if found.is_empty() != (fault == Fault::None) {
        return Err(format!("{fault:?}: {} differences found", found.len()));
    }
    let largest = found.iter().map(|difference| difference.request.query.len()).max().unwrap_or(0);
    if largest > fault.small() {
        return Err(format!("{fault:?}: shrunk only to {largest} bytes"));
    }
    Ok(largest)
}

#[cfg(test)]
mod tests {
    #[test]
    fn injected_faults_are_found_and_shrunk() {
        super::selftest(7, 300).expect("every fault is found");
    }
}
