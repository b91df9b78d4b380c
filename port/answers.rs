//! What the program answers, read by a thread of its own, so that it can always write: replies and completions go to
//! their clients, changes to the display, and what is due to the server.

use super::clients::Clients;
use super::clock::Wait;
use super::display::{complain, Display};
use super::frames::{Answer, Frame};
use super::record::Record;
use super::server::Event;
use std::io::{BufReader, Read};
use std::sync::mpsc::{Receiver, Sender, SyncSender};
use std::sync::Arc;

/// The server asks what is due after each event, and says beforehand which wait led up to it: so the answers up to the
/// next `d` belong to the next of these waits.
pub struct Answers {
    pub clients: Arc<Clients>,
    pub display: Display,
    pub record: Option<Record>,
    pub waits: Receiver<Wait>,
    pub due: Sender<Option<u64>>,
    pub events: SyncSender<Event>,
}

impl Answers {
    /// Reads until the program's output ends, which the server has to know if it did not end the program itself.
    pub fn read(mut self, output: impl Read) -> Result<(), String> {
        let taken = self.take_all(output);
        // where there is no room for it, the server is not idle and sees it by itself
        let _ = self.events.try_send(Event::Lost);
        self.display.end();
        taken
    }

    fn take_all(&mut self, output: impl Read) -> Result<(), String> {
        let mut output = BufReader::new(output);
        let mut wait = None;
        while let Some(frame) = Frame::read(&mut output).map_err(|error| format!("the program's answers: {error}"))? {
            if let Some(record) = &mut self.record {
                record.put(&frame.written())?;
            }
            let unknown = || format!("the program wrote `{}`", frame.written().escape_ascii());
            let answer = frame.answer().ok_or_else(unknown)?;
            let during = match wait {
                Some(wait) => wait,
                None => self.waits.recv().map_err(|_| "the program said something unasked")?,
            };
            wait = Some(during).filter(|_| !matches!(answer, Answer::Due(_)));
            self.take(&answer, during);
        }
        Ok(())
    }

    fn take(&mut self, answer: &Answer, during: Wait) {
        match answer {
            Answer::Reply { to, text } => self.clients.leave(*to, text),
            Answer::Completion { to: Some(to), after, text } => {
                self.clients.leave(*to, text);
                self.display.show(during.start + after, answer);
            }
            Answer::Completion { to: None, after, .. } => self.display.show(during.start + after, answer),
            Answer::Connector { .. } | Answer::Relay { .. } => self.display.show(during.end, answer),
            Answer::Refusal { of, number } => complain(&format!("a reading of 1:{of} was refused with {number}")),
            // where nobody takes it, the server has ended
            Answer::Due(after) => drop(self.due.send(*after)),
            Answer::Carriers | Answer::Levels => (),
        }
    }
}
