//! The oracle's port: the frames of docs/PORT-OTHER.md over the oracle's hub, to be compared with the proved program `port`
//! byte for byte, and to stand in for it behind the socket. Frames, the joining of lines, carriers and what is due are
//! its own, from that page and document 01 alone: a line is what a plain split at CR gives, and the carriers are looked
//! up in the waveforms as they are written out.
//! It reads frames on standard input and writes the answers' frames on standard output; all that was read is answered
//! before the next read.

#[path = "hub.rs"]
#[allow(dead_code)] // the bench's half of the hub is not asked for here
mod hub;

use hub::{Hub, Mode, Moment, Periods, Said, Sending};
use std::collections::VecDeque;
use std::io::{self, Read, Write};

const CR: u8 = b'\r';
const CONNECTIONS: usize = 8;
const LONGEST_WAIT: u128 = 1_000_000_000;
const NOBODY: u8 = 255;

fn frame(kind: u8, connection: u8, bytes: &[u8]) -> Vec<u8> {
    let length = bytes.len() as u16;
    [&[kind, connection], &length.to_be_bytes()[..], bytes].concat()
}

fn refusal(connection: u8, number: u32) -> Vec<u8> {
    frame(b'!', connection, &(number as u16).to_be_bytes())
}

fn with_cr(text: &str) -> Vec<u8> {
    [text.as_bytes(), &[CR]].concat()
}

/// The asker's reply, all its lines in one frame, and then what goes to somebody else.
fn reply_frames(asker: u8, said: &[Said]) -> Vec<u8> {
    let (mut to_asker, mut to_others) = (Vec::new(), Vec::new());
    for one in said {
        match one {
            Said::Reply { to, text } if *to == u64::from(asker) => to_asker.extend(with_cr(text)),
            Said::Reply { to, text } => to_others.extend(frame(b'b', *to as u8, &with_cr(text))),
            _ => (),
        }
    }
    let first = if to_asker.is_empty() { Vec::new() } else { frame(b'b', asker, &to_asker) };
    [first, to_others].concat()
}

/// What a call other than a line says: completions and refusals.
fn call_frames(connection: u8, said: &[Said]) -> Vec<u8> {
    said.iter().flat_map(|one| call_frame(connection, one)).collect()
}

fn call_frame(connection: u8, said: &Said) -> Vec<u8> {
    match said {
        Said::Completion { after, to, text } => {
            let moment = (*after as u32).to_be_bytes();
            frame(b'f', to.map_or(NOBODY, |to| to as u8), &[&moment[..], &with_cr(text)].concat())
        }
        Said::Refusal(number) => refusal(connection, *number),
        Said::Reply { .. } | Said::AnotherForm => Vec::new(),
    }
}

/// "The carrier is on where that lies in an on count, its start included and its end not."
fn carrier(sending: &Sending, now: Moment) -> bool {
    let done = sending.done_at(now);
    let Some(copy) = sending.copies.iter().rev().find(|copy| done.reaches(copy.begins)) else {
        return false;
    };
    let mut end = copy.begins;
    let passed = copy.counts.iter().take_while(|count| {
        end = Periods(end.0 + u128::from(**count));
        done.reaches(end)
    });
    passed.count() % 2 == 0
}

struct Port {
    hub: Hub,
    /// The bytes of each connection behind its last CR.
    unfinished: [Vec<u8>; CONNECTIONS],
    /// What was read and is not yet served.
    read: VecDeque<u8>,
    /// The connection of the piece in hand, and how many of its bytes are still to come.
    piece: (u8, usize),
    /// How many bytes are still to be passed over.
    over: usize,
}

/// How many bytes frames of a kind have, other than pieces.
fn bytes_of(kind: u8) -> Option<usize> {
    match kind {
        b'x' | b'c' | b'l' | b'd' => Some(0),
        b'r' => Some(1),
        b'w' => Some(4),
        _ => None,
    }
}

impl Port {
    fn fresh() -> Port {
        Port { hub: Hub::fresh(), unfinished: Default::default(), read: VecDeque::new(), piece: (0, 0), over: 0 }
    }

    fn take(&mut self, number: usize) -> Vec<u8> {
        self.read.drain(..number).collect()
    }

    /// The answers to some bytes that were read.
    fn feed(&mut self, bytes: &[u8]) -> Vec<u8> {
        self.read.extend(bytes);
        let mut answers = Vec::new();
        while let Some(answer) = self.step() {
            answers.extend(answer);
        }
        answers
    }

    /// The answer to what comes next: "a piece's bytes are served as they come, all other frames when they are whole".
    fn step(&mut self) -> Option<Vec<u8>> {
        let passed_over = self.over.min(self.read.len());
        self.take(passed_over);
        self.over -= passed_over;
        let (connection, left) = self.piece;
        if left > 0 {
            let number = left.min(self.read.len());
            let bytes = self.take(number);
            self.piece = (connection, left - number);
            return Some(self.serve(connection, &bytes)).filter(|_| number > 0);
        }
        self.frame()
    }

    /// The next frame, of a piece its head alone. A frame is refused for its head at once, and its bytes passed over.
    fn frame(&mut self) -> Option<Vec<u8>> {
        let head: Vec<u8> = self.read.iter().copied().take(4).collect();
        let [kind, connection, high, low] = head[..] else {
            return None;
        };
        let length = usize::from(high) * 256 + usize::from(low);
        let refused_with = match kind {
            b'b' if usize::from(connection) < CONNECTIONS => None,
            b'b' => Some(102),
            _ if bytes_of(kind) == Some(length) => None,
            _ => Some(0),
        };
        if let Some(number) = refused_with {
            self.take(4);
            self.over = length;
            return Some(refusal(connection, number));
        }
        if kind == b'b' {
            self.take(4);
            self.piece = (connection, length);
            return Some(Vec::new());
        }
        if self.read.len() < 4 + length {
            return None;
        }
        let whole = self.take(4 + length);
        Some(self.call(kind, connection, &whole[4..]))
    }

    /// Bytes of a piece.
    fn serve(&mut self, connection: u8, bytes: &[u8]) -> Vec<u8> {
        let mut answers = Vec::new();
        for (index, part) in bytes.split(|byte| *byte == CR).enumerate() {
            let unfinished = &mut self.unfinished[usize::from(connection)];
            // between two parts there is a CR
            let line = if index > 0 { Some(std::mem::take(unfinished)) } else { None };
            unfinished.extend(part);
            answers.extend(line.map_or(Vec::new(), |line| self.line(connection, &line)));
        }
        answers
    }

    /// "A `b` to the asker, a second `b` with the same bytes to the owner of a halted transmission if that is another
    /// connection, then an `s`".
    fn line(&mut self, connection: u8, line: &[u8]) -> Vec<u8> {
        let before = self.hub.carried_out.len();
        let said = self.hub.line(u64::from(connection), line);
        let carried_out = self.hub.carried_out[before..].to_vec();
        let states = carried_out.into_iter().flat_map(|place| frame(b's', connection, &self.state(place)));
        reply_frames(connection, &said).into_iter().chain(states).collect()
    }

    /// How a connector or a relay is now.
    fn state(&self, (module, port): (u64, u64)) -> Vec<u8> {
        if module == 2 {
            return vec![2, port as u8, self.hub.relay(port) as u8];
        }
        let connector = self.hub.connector(port);
        let mode = match connector.mode() {
            Mode::Ir => 0,
            Mode::Sensor => 1,
            Mode::IrBlaster => 2,
            Mode::LedLighting => 3,
        };
        let id = connector.sending().map(|sending| sending.command.id as u16);
        let [high, low] = id.unwrap_or(0).to_be_bytes();
        let target = connector.lamp().map_or(0, |lamp| lamp.target as u8);
        vec![1, port as u8, mode, u8::from(id.is_some()), high, low, target]
    }

    /// A frame other than a piece.
    fn call(&mut self, kind: u8, connection: u8, bytes: &[u8]) -> Vec<u8> {
        match (kind, bytes) {
            (b'x', []) => self.close(connection),
            (b'r', [value]) => {
                let (port, value) = (u64::from(connection), u64::from(*value));
                call_frames(connection, &self.hub.read_contact(port, value))
            }
            (b'w', [a, b, c, d]) => {
                let microseconds = u32::from_be_bytes([*a, *b, *c, *d]);
                call_frames(connection, &self.hub.wait(u64::from(microseconds)))
            }
            (b'c', []) => frame(b'c', 0, &self.carriers()),
            (b'l', []) => frame(b'l', 0, &self.hub.levels().map(|percent| percent as u8)),
            (b'd', []) => frame(b'd', 0, &self.due()),
            _ => refusal(connection, 0),
        }
    }

    /// "Its transmissions run on with no owner, and its unfinished line is dropped."
    fn close(&mut self, connection: u8) -> Vec<u8> {
        if let Some(unfinished) = self.unfinished.get_mut(usize::from(connection)) {
            unfinished.clear();
        }
        call_frames(connection, &self.hub.close(u64::from(connection)))
    }

    fn carriers(&self) -> Vec<u8> {
        let is_on = |sending| carrier(sending, self.hub.now);
        self.hub.connectors.iter().map(|connector| u8::from(connector.sending().is_some_and(is_on))).collect()
    }

    fn due(&self) -> Vec<u8> {
        let moments = self.hub.connectors.iter().filter_map(|connector| connector.sending().map(Sending::completes));
        let next = moments.min().map(|moment| moment.0 - self.hub.now.0);
        next.filter(|after| *after <= LONGEST_WAIT).map_or(Vec::new(), |after| (after as u32).to_be_bytes().to_vec())
    }
}

fn main() -> io::Result<()> {
    let (mut input, mut output) = (io::stdin().lock(), io::stdout().lock());
    let mut port = Port::fresh();
    let mut block = vec![0; 65_536];
    loop {
        let number = input.read(&mut block)?;
        if number == 0 {
            return Ok(());
        }
        output.write_all(&port.feed(&block[..number]))?;
        output.flush()?;
    }
}
