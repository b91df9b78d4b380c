//! Programs, each given by the words of its command.

use std::io::Write;
use std::process::{Command, Stdio};

/// What a program prints on an input, or why it failed: a program that fails tells nothing.
pub fn output(words: &[String], input: &[u8]) -> Result<Vec<u8>, String> {
    let spawned = Command::new(&words[0]).args(&words[1..]).stdin(Stdio::piped()).stdout(Stdio::piped()).spawn();
    let mut child = spawned.map_err(|error| format!("{}: {error}", words[0]))?;
    let pipe = child.stdin.take();
    let done = std::thread::scope(|scope| {
        // A program may end before it has read everything; its status then says why.
        scope.spawn(move || pipe.map(|mut pipe| pipe.write_all(input)));
        child.wait_with_output()
    });
    match done {
        Ok(output) if output.status.success() => Ok(output.stdout),
        Ok(output) => Err(format!("{}: {}", words[0], output.status)),
        Err(error) => Err(format!("{}: {error}", words[0])),
    }
}
