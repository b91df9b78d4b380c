//! What the technician sees: a line on standard output, with its time, for each event that changed something.

use super::frames::Answer;
use std::io::{self, Write};
use std::sync::mpsc::{sync_channel, Receiver, SyncSender};
use std::time::Duration;

/// So many lines may wait for a terminal that takes none; those beyond are counted and not shown.
const LINES: usize = 1000;
/// How long the last lines may take at the end.
const PATIENCE: Duration = Duration::from_millis(500);

/// How the connectors and relays were when something was last said of them.
#[derive(Default)]
struct Memory {
    connectors: [(u8, Option<u16>); 3],
    relays: [u8; 3],
}

fn mode_word(mode: u8) -> &'static str {
    match mode {
        0 => "IR",
        1 => "SENSOR",
        2 => "IR_BLASTER",
        _ => "LED_LIGHTING",
    }
}

impl Memory {
    fn connector(&mut self, by: u8, port: u8, mode: u8, id: Option<u16>, target: u8) -> Option<String> {
        let known = self.connectors.get_mut(usize::from(port).checked_sub(1)?)?;
        let (mode_before, id_before) = std::mem::replace(known, (mode, id));
        match (id_before, id) {
            _ if mode != mode_before => Some(format!("mode 1:{port} {} by {by}", mode_word(mode))),
            // a lamp was turned, or had its mode set again: these are told alike
            (None, None) => (target > 0).then(|| format!("lamp 1:{port} to {target} by {by}")),
            (None, Some(id)) => Some(format!("1:{port} transmits {id} for {by}")),
            (Some(_), None) => Some(format!("1:{port} halted by {by}")),
            (Some(before), Some(id)) if before == id => Some(format!("1:{port} renewed")),
            (Some(before), Some(id)) => Some(format!("1:{port} transmits {id} for {by} in the place of {before}")),
        }
    }

    fn relay(&mut self, by: u8, port: u8, state: u8) -> Option<String> {
        let known = self.relays.get_mut(usize::from(port).checked_sub(1)?)?;
        let changed = std::mem::replace(known, state) != state;
        let word = if state == 1 { "closed" } else { "open" };
        changed.then(|| format!("relay 2:{port} {word} by {by}"))
    }

    /// The text of a completion is `completeir,1:p,id` and CR.
    fn completion(&mut self, text: &[u8]) -> Option<String> {
        let port = text.strip_prefix(b"completeir,1:")?.first()?.checked_sub(b'0')?;
        self.connectors.get_mut(usize::from(port).checked_sub(1)?)?.1 = None;
        Some(format!("1:{port} complete"))
    }

    fn told(&mut self, answer: &Answer) -> Option<String> {
        match *answer {
            Answer::Connector { by, port, mode, id, target } => self.connector(by, port, mode, id, target),
            Answer::Relay { by, port, state } => self.relay(by, port, state),
            Answer::Completion { text, .. } => self.completion(text),
            Answer::Reply { .. } | Answer::Refusal { .. } => None,
            Answer::Carriers | Answer::Levels | Answer::Due(_) => None,
        }
    }
}

/// The lines are printed by a thread of their own: a terminal that is held up holds up nothing else.
pub struct Display {
    memory: Memory,
    lines: SyncSender<String>,
    printed: Receiver<()>,
    missed: usize,
}

impl Display {
    pub fn start() -> Result<Display, String> {
        let (lines, to_print) = sync_channel(LINES);
        let (at_end, printed) = sync_channel(0);
        super::spawn("display", move || {
            to_print.iter().for_each(|line: String| say(&line));
            drop(at_end);
        })?;
        Ok(Display { memory: Memory::default(), lines, printed, missed: 0 })
    }

    /// Shows what an answer tells of a change, with the moment in microseconds.
    pub fn show(&mut self, moment: u64, answer: &Answer) {
        if let Some(text) = self.memory.told(answer) {
            self.print(format!("{}.{:06} {text}\n", moment / 1_000_000, moment % 1_000_000));
        }
    }

    fn print(&mut self, line: String) {
        if self.missed > 0 && self.lines.try_send(format!("({} lines were not shown)\n", self.missed)).is_ok() {
            self.missed = 0;
        }
        if self.lines.try_send(line).is_err() {
            self.missed += 1;
        }
    }

    /// Lets the last lines be printed, if they can be.
    pub fn end(self) {
        drop(self.lines);
        let _ = self.printed.recv_timeout(PATIENCE);
    }
}

/// Prints on standard output. Nobody may be looking any more, which changes nothing for the hub.
pub fn say(line: &str) {
    let mut output = io::stdout().lock();
    let _ = output.write_all(line.as_bytes()).and_then(|()| output.flush());
}

/// Prints on standard error what is wrong.
pub fn complain(why: &str) {
    let _ = io::stderr().write_all(format!("port: {why}\n").as_bytes());
}

#[cfg(test)]
mod tests {
    use super::*;

    #[test]
    fn only_changes_are_shown() {
        let mut memory = Memory::default();
        assert_eq!(memory.relay(4, 2, 0), None);
        assert_eq!(memory.relay(4, 2, 1).as_deref(), Some("relay 2:2 closed by 4"));
        assert_eq!(memory.relay(5, 2, 1), None);
        assert_eq!(memory.connector(0, 1, 0, None, 0), None);
        assert_eq!(memory.connector(0, 3, 1, None, 0).as_deref(), Some("mode 1:3 SENSOR by 0"));
        assert_eq!(memory.connector(0, 3, 1, None, 0), None);
        assert_eq!(memory.relay(0, 0, 1), None);
        assert_eq!(memory.relay(0, 4, 1), None);
    }

    #[test]
    fn a_transmission_is_shown_from_its_start_to_its_end() {
        let mut memory = Memory::default();
        assert_eq!(memory.connector(1, 1, 0, Some(7), 0).as_deref(), Some("1:1 transmits 7 for 1"));
        assert_eq!(memory.connector(1, 1, 0, Some(7), 0).as_deref(), Some("1:1 renewed"));
        assert_eq!(memory.connector(1, 1, 0, Some(8), 0).as_deref(), Some("1:1 transmits 8 for 1 in the place of 7"));
        assert_eq!(memory.completion(b"completeir,1:1,8\r").as_deref(), Some("1:1 complete"));
        assert_eq!(memory.connector(2, 1, 0, None, 0), None);
        assert_eq!(memory.connector(1, 1, 0, Some(8), 0).as_deref(), Some("1:1 transmits 8 for 1"));
        assert_eq!(memory.connector(2, 1, 0, None, 0).as_deref(), Some("1:1 halted by 2"));
    }

    #[test]
    fn a_lamp_is_shown_when_it_is_turned() {
        let mut memory = Memory::default();
        assert_eq!(memory.connector(3, 2, 3, None, 0).as_deref(), Some("mode 1:2 LED_LIGHTING by 3"));
        assert_eq!(memory.connector(3, 2, 3, None, 0), None);
        assert_eq!(memory.connector(3, 2, 3, None, 50).as_deref(), Some("lamp 1:2 to 50 by 3"));
        assert_eq!(memory.connector(4, 2, 3, None, 50).as_deref(), Some("lamp 1:2 to 50 by 4"));
        assert_eq!(memory.connector(4, 2, 0, None, 0).as_deref(), Some("mode 1:2 IR by 4"));
        assert_eq!(memory.connector(4, 4, 3, None, 50), None);
    }
}
