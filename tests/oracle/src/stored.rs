//! What is stored beside this implementation: tables with their tidy tables,
//! tables of version 2 with what their completion gives, the tables of the
//! stored cases, and the frame starts.

use crate::refusal::Refusal;
use std::fs;
use std::path::{Path, PathBuf};

/// A table and its tidy table.
#[derive(Clone, Debug, PartialEq, Eq)]
pub struct Row {
    pub name: String,
    pub table: Vec<u8>,
    pub tidy: Vec<u8>,
}

/// A table of version 2 and its completed table, or what it is refused with.
#[derive(Clone, Debug, PartialEq, Eq)]
pub struct BriefRow {
    pub name: String,
    pub table: Vec<u8>,
    pub completed: Result<Vec<u8>, Refusal>,
}

/// A file or folder of the tests.
fn stored(name: &str) -> PathBuf {
    Path::new(env!("CARGO_MANIFEST_DIR")).join("..").join(name)
}

/// The rows of a file, without its comments; what stands before the first is
/// left out.
fn rows<T>(name: &str, row: fn(&str) -> T) -> Vec<T> {
    let text = fs::read_to_string(stored(name)).expect("the rows are there");
    let lines = text.lines().filter(|line| !line.starts_with('#'));
    let text: String = lines.flat_map(|line| [line, "\n"]).collect();
    text.split("\nrow ").skip(1).map(row).collect()
}

/// The rows of `tests/tidy/rows.txt`.
pub fn tidy_rows() -> Vec<Row> {
    rows("tidy/rows.txt", row)
}

/// The rows of `tests/complete/rows.txt`.
pub fn brief_rows() -> Vec<BriefRow> {
    rows("complete/rows.txt", brief_row)
}

fn row(text: &str) -> Row {
    let (name, rest) = text.split_once("\ntable\n").expect("a row has a table");
    let (table, tidy) = rest.split_once("\ntidy\n").expect("a row has a tidy table");
    Row {
        name: name.to_string(),
        table: bytes(table),
        tidy: bytes(tidy),
    }
}

fn brief_row(text: &str) -> BriefRow {
    let (name, rest) = text.split_once("\ntable\n").expect("a row has a table");
    let (table, completed) = match rest.split_once("\ncompleted\n") {
        Some((table, completed)) => (table, Ok(bytes(completed))),
        None => {
            let (table, refused) = rest.split_once("\nrefused ").expect("a row has an answer");
            (table, Err(refusal(refused)))
        }
    };
    BriefRow {
        name: name.to_string(),
        table: bytes(table),
        completed,
    }
}

/// A refusal's number, and its place where it has one.
fn refusal(text: &str) -> Refusal {
    let words = text.split_whitespace();
    let numbers: Vec<usize> = words.map(|word| word.parse().expect("a number")).collect();
    match numbers[..] {
        [number] => Refusal::plain(number as u8),
        [3, at] => Refusal::byte(at),
        [number, function, block] => Refusal::fault(number as u8, function, block),
        _ => panic!("no refusal: {text}"),
    }
}

/// The bytes of some hexadecimal digits.
fn bytes(text: &str) -> Vec<u8> {
    let digits: Vec<u8> = text
        .chars()
        .filter(|c| !c.is_whitespace())
        .map(|c| c.to_digit(16).expect("a digit") as u8)
        .collect();
    assert!(digits.len().is_multiple_of(2), "two digits are a byte");
    digits.chunks(2).map(|two| 16 * two[0] + two[1]).collect()
}

/// The tables that the inputs of `tests/cases` begin with: as many bytes as the
/// length field says, or all.
pub fn case_tables() -> Vec<Vec<u8>> {
    let folder = fs::read_dir(stored("cases")).expect("the cases are there");
    let mut paths: Vec<PathBuf> = folder
        .map(|entry| entry.expect("an entry").path())
        .filter(|path| path.extension().is_some_and(|end| end == "in"))
        .collect();
    paths.sort();
    paths
        .iter()
        .map(|path| front(fs::read(path).expect("a case is there")))
        .collect()
}

fn front(mut input: Vec<u8>) -> Vec<u8> {
    if let Some(field) = input.first_chunk() {
        input.truncate(u32::from_be_bytes(*field) as usize);
    }
    input
}

/// The numbers of `tests/starts/constants.txt`.
pub fn frame_starts() -> Vec<usize> {
    let text = fs::read_to_string(stored("starts/constants.txt")).expect("the starts are there");
    text.lines()
        .map(|line| line.parse().expect("a number"))
        .collect()
}
