//! Where the conflict of a query arises: a front of it, its first fields, that
//! is in conflict stays so whatever comes after it (02, E7).

use crate::walk::Placed;
use zunidelo::{check, Verdict};

/// Which field of a query in conflict is the last one of its shortest front in
/// conflict. Since a conflict stays, the fronts are bisected.
pub fn conflict_arises(query: &[u8], fields: &[Placed]) -> usize {
    fields.partition_point(|last| !is_in_conflict(&query[..last.offset + last.length]))
}

fn is_in_conflict(front: &[u8]) -> bool {
    matches!(check(front), Ok(Verdict::Conflict { .. }))
}
