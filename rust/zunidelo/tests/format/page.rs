//! docs/FORMAT.md, taken apart: its sections, with their tables and blocks.
//! What is missing, or empty, ends the test.

use std::fs;
use std::path::PathBuf;
use std::sync::LazyLock;

/// What stands under one heading, up to the next one.
#[derive(Default)]
pub struct Section {
    heading: String,
    /// The lines outside blocks.
    lines: Vec<String>,
    /// The blocks, each with its language.
    blocks: Vec<(String, String)>,
}

/// The folder of the page, from which its links go.
fn folder() -> PathBuf {
    PathBuf::from(env!("CARGO_MANIFEST_DIR")).join("../../docs")
}

fn text() -> String {
    fs::read_to_string(folder().join("FORMAT.md")).expect("docs/FORMAT.md")
}

static SECTIONS: LazyLock<Vec<Section>> = LazyLock::new(take_apart);

fn take_apart() -> Vec<Section> {
    let mut sections = vec![Section::default()];
    let mut in_block = false;
    for line in text().lines() {
        let section = sections.last_mut().expect("at least one section");
        if let Some(language) = line.strip_prefix("```") {
            in_block = !in_block;
            if in_block {
                section.blocks.push((language.to_string(), String::new()));
            }
        } else if in_block {
            let block = &mut section.blocks.last_mut().expect("the open block").1;
            *block += &format!("{line}\n");
        } else if line.starts_with('#') {
            let heading = line.trim_start_matches(['#', ' ']).to_string();
            sections.push(Section { heading, ..Section::default() });
        } else {
            section.lines.push(line.to_string());
        }
    }
    assert!(!in_block, "the last block is closed");
    sections
}

/// The one section with this heading.
pub fn section(heading: &str) -> &'static Section {
    let found: Vec<&Section> =
        SECTIONS.iter().filter(|section| section.heading == heading).collect();
    assert_eq!(found.len(), 1, "headings: {heading}");
    found[0]
}

impl Section {
    /// The rows of the one table with these columns.
    pub fn table<const COLUMNS: usize>(&self, columns: [&str; COLUMNS]) -> Vec<[String; COLUMNS]> {
        let lines = &self.lines;
        let starts: Vec<usize> =
            (0..lines.len()).filter(|at| cells(&lines[*at]) == columns).collect();
        assert_eq!(starts.len(), 1, "tables of {columns:?} under {}", self.heading);
        let rows = &lines[starts[0] + 1..];
        assert!(rows[0].starts_with("|---"), "a line under the columns {columns:?}");
        let rows: Vec<[String; COLUMNS]> = rows[1..]
            .iter()
            .take_while(|line| line.starts_with('|'))
            .map(|line| cells(line).try_into().expect("a cell in each column"))
            .collect();
        assert!(!rows.is_empty(), "the table of {columns:?} is empty");
        rows
    }

    /// The one block of this language.
    pub fn block(&self, language: &str) -> &str {
        let mut found = self.blocks.iter().filter(|block| block.0 == language);
        let block = found.next().unwrap_or_else(|| panic!("{language} under {}", self.heading));
        assert!(found.next().is_none(), "one {language} under {}", self.heading);
        assert!(!block.1.is_empty(), "the block of {language} under {} is empty", self.heading);
        &block.1
    }

    /// Its text outside blocks, in one line.
    pub fn prose(&self) -> String {
        self.lines.join(" ")
    }
}

fn cells(line: &str) -> Vec<String> {
    let inner = line.strip_prefix('|').and_then(|line| line.strip_suffix('|'));
    inner.map_or(vec![], |inner| inner.split('|').map(|cell| cell.trim().to_string()).collect())
}

/// A number as the page writes it: `4,096`.
pub fn number(cell: &str) -> usize {
    cell.replace(',', "").parse().unwrap_or_else(|_| panic!("a number: {cell}"))
}

/// A byte in hex, such as a tag.
pub fn byte(cell: &str) -> u8 {
    assert_eq!(cell.len(), 2, "a byte in hex: {cell}");
    u8::from_str_radix(cell, 16).unwrap_or_else(|_| panic!("a byte in hex: {cell}"))
}

/// A word in code, such as a call: `` `eq` ``.
pub fn code(cell: &str) -> &str {
    let inner = cell.strip_prefix('`').and_then(|cell| cell.strip_suffix('`'));
    inner.unwrap_or_else(|| panic!("code: {cell}"))
}

/// The parts of a list, and none of the cell `none`.
pub fn list(cell: &str) -> Vec<&str> {
    cell.split(", ").filter(|part| *part != "none").collect()
}

#[test]
fn every_link_leads_somewhere() {
    let text = text();
    let links: Vec<&str> = text
        .split("](")
        .skip(1)
        .filter_map(|rest| rest.split_once(')'))
        .map(|pair| pair.0)
        .collect();
    assert!(links.len() >= 5, "header, crate, PROMISES, K6, what the caller owes");
    for link in links {
        match link.strip_prefix('#') {
            Some(anchor) => {
                let name = |section: &Section| section.heading.to_lowercase().replace(' ', "-");
                assert!(SECTIONS.iter().any(|section| name(section) == anchor), "{link}");
            }
            None => assert!(folder().join(link).is_file(), "{link}"),
        }
    }
}
