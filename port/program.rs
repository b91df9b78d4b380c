//! The program behind the socket, over its standard input and output.

use std::io::Write;
use std::os::unix::process::CommandExt;
use std::process::{Child, ChildStdin, ChildStdout, Command, ExitStatus, Stdio};
use std::thread::sleep;
use std::time::{Duration, Instant};

/// How long it may take to end where its input ends.
const PATIENCE: Duration = Duration::from_secs(2);

pub struct Program {
    name: String,
    child: Child,
    input: Option<ChildStdin>,
}

impl Program {
    /// Starts it in a process group of its own: Ctrl-C is for the socket, which ends it then.
    pub fn start(words: &[String]) -> Result<Program, String> {
        let name = words[0].clone();
        let mut command = Command::new(&name);
        command.args(&words[1..]).stdin(Stdio::piped()).stdout(Stdio::piped()).process_group(0);
        let mut child = command.spawn().map_err(|error| format!("{name}: {error}"))?;
        let input = child.stdin.take();
        Ok(Program { name, child, input })
    }

    /// Where its answers are read, once.
    pub fn output(&mut self) -> Result<ChildStdout, String> {
        self.child.stdout.take().ok_or(format!("{}: no output", self.name))
    }

    pub fn give(&mut self, frames: &[u8]) -> Result<(), String> {
        let input = self.input.as_mut().ok_or(format!("{}: no input", self.name))?;
        input.write_all(frames).map_err(|error| format!("{}: {error}", self.name))
    }

    /// Why it is not there any more, though nobody ended it.
    pub fn lost(&mut self) -> String {
        match self.end() {
            Ok(status) => format!("{} ended by itself: {status}", self.name),
            Err(why) => why,
        }
    }

    /// Ends its input, and so the program; one that does not end then is killed.
    pub fn end(&mut self) -> Result<ExitStatus, String> {
        self.input = None;
        let start = Instant::now();
        loop {
            match self.child.try_wait() {
                Ok(Some(status)) => return Ok(status),
                Ok(None) if start.elapsed() < PATIENCE => sleep(Duration::from_millis(5)),
                Ok(None) => {
                    let _ = self.child.kill();
                    let _ = self.child.wait();
                    return Err(format!("{} did not end and was killed", self.name));
                }
                Err(error) => return Err(format!("{}: {error}", self.name)),
            }
        }
    }
}
