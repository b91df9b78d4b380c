//! Contact readings on standard input, a line each: `r 2 0` is connector 2 and the state 0.

use super::display::complain;
use super::server::Event;
use std::io::{self, BufRead};

/// Hands on each reading, until the input ends or nobody takes one.
pub fn read(mut hand_on: impl FnMut(Event) -> bool) {
    for line in io::stdin().lock().split(b'\n') {
        let Ok(line) = line else {
            return;
        };
        match reading(&line) {
            Some(event) => {
                if !hand_on(event) {
                    return;
                }
            }
            None => complain(&format!("not a reading: {} (a reading is `r 2 0`)", line.escape_ascii())),
        }
    }
}

/// The program judges port and state; here they only have to go into a frame.
fn reading(line: &[u8]) -> Option<Event> {
    let words: Vec<&str> = std::str::from_utf8(line).ok()?.split_ascii_whitespace().collect();
    match words[..] {
        ["r", port, state] => Some(Event::Reading { port: port.parse().ok()?, state: state.parse().ok()? }),
        _ => None,
    }
}
