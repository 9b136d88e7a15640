//! What a fault makes of the text of a right answer.

/// How many cells of one array are left where they are cut off.
pub const CELLS_LEFT: usize = 48;

pub fn without_equal(answer: &str) -> String {
    answer.split_inclusive('\n').filter(|line| !line.starts_with("eq ")).collect()
}

pub fn with_pair_lost(answer: &str) -> String {
    let (first, rest) = answer.split_once('\n').unwrap_or((answer, ""));
    match first.strip_prefix("conflict ").and_then(|pairs| pairs.parse::<usize>().ok()) {
        Some(pairs) => format!("conflict {}\n{rest}", pairs - 1),
        None => answer.to_string(),
    }
}

pub fn with_cells_cut_off(answer: &str) -> String {
    let lines: Vec<&str> = answer.split_inclusive('\n').collect();
    let array = |line: &str| line.split(' ').next().map(str::to_string);
    let arrays = lines.chunk_by(|one, next| array(one) == array(next));
    arrays.flat_map(|cells| &cells[..cells.len().min(CELLS_LEFT)]).copied().collect()
}

pub fn with_last_byte_lost(answer: &str) -> String {
    let lines: Vec<&str> = answer.lines().collect();
    let words: Vec<&str> = lines[0].split(' ').collect();
    match words[..] {
        ["conflict", _, length] => {
            let end = 2 * length.parse::<usize>().expect("a length");
            format!("{}\n{}aa{}\n", lines[0], &lines[1][..end - 2], &lines[1][end..])
        }
        _ => answer.to_string(),
    }
}

pub fn with_sign_turned(answer: &str) -> String {
    // The first clause that follows another one and begins with a minus.
    answer.replacen(" 0 -", " 0 ", 1)
}
