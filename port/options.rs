//! The words of the command line.

use std::path::PathBuf;

pub const USAGE: &str = "usage: port [ADDRESS:PORT] [--record FILE] --program WORDS..";
const USUAL_ADDRESS: &str = "127.0.0.1:4998";

pub struct Options {
    pub address: String,
    pub record: Option<PathBuf>,
    pub program: Vec<String>,
}

impl Options {
    pub fn of(mut words: impl Iterator<Item = String>) -> Result<Options, String> {
        let (mut address, mut record, mut program) = (None, None, Vec::new());
        while let Some(word) = words.next() {
            match word.as_str() {
                "--record" => record = Some(PathBuf::from(words.next().ok_or(USAGE)?)),
                "--program" => program = words.by_ref().collect(),
                other if other.starts_with('-') || address.is_some() => return Err(format!("{other}? {USAGE}")),
                _ => address = Some(word),
            }
        }
        if program.is_empty() {
            return Err(USAGE.to_string());
        }
        Ok(Options { address: address.unwrap_or(USUAL_ADDRESS.to_string()), record, program })
    }
}
