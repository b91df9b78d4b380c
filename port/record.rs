//! A recording: all frames that the program was given, and all that came back.

use std::fs::File;
use std::io::Write;
use std::path::{Path, PathBuf};

pub struct Record {
    path: PathBuf,
    file: File,
}

impl Record {
    /// The recording of what is given, and that of what comes back, if there shall be one.
    pub fn both(path: Option<&Path>) -> Result<Option<(Record, Record)>, String> {
        let Some(path) = path else {
            return Ok(None);
        };
        let mut back = path.as_os_str().to_owned();
        back.push(".out");
        Ok(Some((Record::at(path.to_owned())?, Record::at(PathBuf::from(back))?)))
    }

    fn at(path: PathBuf) -> Result<Record, String> {
        let file = File::create(&path).map_err(|error| format!("{}: {error}", path.display()))?;
        Ok(Record { path, file })
    }

    pub fn put(&mut self, frames: &[u8]) -> Result<(), String> {
        self.file.write_all(frames).map_err(|error| format!("{}: {error}", self.path.display()))
    }
}
