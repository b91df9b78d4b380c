//! A script of the bench as frames for the port: its lines cut into pieces with other connections' pieces in between,
//! the carriers asked for after each call and the levels after every other, and frames of other forms among them. The
//! lines end in the script's order, so the moments that a script aims at are met here too. A wait may be told in parts,
//! which end where a carrier goes on or off or a lamp passes a percent; to find these, the oracle's hub runs beside
//! what is written.

use super::random::Random;
use super::scripts::hub::{Hub, Moment, Periods};
use super::scripts::percents_ahead;
use std::ops::Range;

const CR: u8 = b'\r';
const CONNECTIONS: usize = 8;
const MOST_BYTES: usize = 65_535;

/// A call of a script. Numbers that no frame can hold are the greatest that one can.
enum Call {
    Line(u8, Vec<u8>),
    Close(u8),
    Reading(u8, u8),
    Wait(u32),
    AnotherForm,
}

fn number(text: &[u8]) -> Option<u64> {
    std::str::from_utf8(text).ok()?.parse().ok()
}

fn byte(number: u64) -> u8 {
    number.min(255) as u8
}

impl Call {
    fn of(line: &[u8]) -> Call {
        let Some(space) = line.iter().position(|byte| *byte == b' ') else {
            return Call::AnotherForm;
        };
        let (head, rest) = (&line[..space], &line[space + 1..]);
        let items: Vec<Option<u64>> = rest.split(|byte| *byte == b' ').map(number).collect();
        match (head, &items[..]) {
            (b"r", [Some(port), Some(value)]) => Call::Reading(byte(*port), byte(*value)),
            (b"x", [Some(connection)]) => Call::Close(byte(*connection)),
            (b"w", [Some(microseconds)]) => Call::Wait((*microseconds).min(u64::from(u32::MAX)) as u32),
            _ => match number(head) {
                Some(connection) => Call::Line(byte(connection), rest.to_vec()),
                None => Call::AnotherForm,
            },
        }
    }

    /// Whose line or closing it is.
    fn connection(&self) -> Option<u8> {
        match self {
            Call::Line(connection, _) | Call::Close(connection) => Some(*connection),
            _ => None,
        }
    }
}

struct Frames {
    random: Random,
    hub: Hub,
    calls: Vec<Call>,
    /// The calls before this one are written.
    place: usize,
    /// How much of its next line each connection has sent ahead.
    ahead: [usize; CONNECTIONS],
    bytes: Vec<u8>,
}

impl Frames {
    fn frame(&mut self, kind: u8, connection: u8, bytes: &[u8]) {
        self.bytes.extend([kind, connection]);
        self.bytes.extend((bytes.len() as u16).to_be_bytes());
        self.bytes.extend(bytes);
    }

    fn piece(&mut self, connection: u8, bytes: &[u8]) {
        for part in bytes.chunks(MOST_BYTES) {
            self.frame(b'b', connection, part);
        }
        if bytes.is_empty() {
            self.frame(b'b', connection, b"");
        }
    }

    /// The bytes that may be sent ahead by a connection: of its next line, or any before it is closed.
    fn next_bytes(&mut self, connection: u8) -> Vec<u8> {
        let next = self.calls[self.place..].iter().find(|call| call.connection() == Some(connection));
        match next {
            Some(Call::Line(_, line)) => line[self.ahead[usize::from(connection)]..].to_vec(),
            _ => {
                let length = if self.random.one_in(20) { 5_000 } else { self.random.below(20) };
                (0..length).map(|_| self.random.below(256) as u8).filter(|byte| *byte != CR).collect()
            }
        }
    }

    /// How much a connection has sent ahead; it begins anew.
    fn sent_ahead(&mut self, connection: u8) -> usize {
        self.ahead.get_mut(usize::from(connection)).map_or(0, std::mem::take)
    }

    /// Some connection, but not this one, sends a part of what comes next from it.
    fn send_ahead(&mut self, but: Option<u8>) {
        let connection = self.random.below(CONNECTIONS as u64) as u8;
        if Some(connection) != but {
            let bytes = self.next_bytes(connection);
            let length = self.random.between(0, bytes.len() as u64) as usize;
            self.piece(connection, &bytes[..length]);
            self.ahead[usize::from(connection)] += length;
        }
    }

    /// What is left of a line, in pieces.
    fn line(&mut self, connection: u8, line: &[u8]) {
        let sent = self.sent_ahead(connection);
        let rest = [&line[sent..], &[CR]].concat();
        let mut cuts: Vec<usize> = Vec::new();
        for _ in 0..self.random.pick(&[0, 0, 0, 1, 2, 5]) {
            cuts.push(self.random.below(rest.len() as u64 + 1) as usize);
        }
        cuts.extend([0, rest.len()]);
        cuts.sort();
        let parts: Vec<Range<usize>> = cuts.windows(2).map(|pair| pair[0]..pair[1]).collect();
        for (index, part) in parts.into_iter().enumerate() {
            if index > 0 && self.random.one_in(2) {
                self.send_ahead(Some(connection));
            }
            self.piece(connection, &rest[part]);
        }
    }

    /// A frame of another form, or a piece of a connection that there is not.
    fn another_form(&mut self) {
        let kind = self.random.pick(b"bbxrwcldqBsf!L\0\n\xff ");
        let connection = self.random.pick(&[0, 1, 2, 7, 8, 9, 255]);
        let connection = if kind == b'b' { connection.max(8) } else { connection };
        let right = match kind {
            b'x' | b'c' | b'l' | b'd' => Some(0),
            b'r' => Some(1),
            b'w' => Some(4),
            _ => None,
        };
        let short = self.random.pick(&[0, 1, 2, 3, 4, 5, 30, 300]);
        let length = if self.random.one_in(60) { MOST_BYTES } else { short };
        let length = if Some(length) == right { length + 1 } else { length };
        let bytes: Vec<u8> = (0..length).map(|_| self.random.below(256) as u8).collect();
        self.frame(kind, connection, &bytes);
    }

    fn call(&mut self, call: &Call) {
        match call {
            Call::Line(connection, line) => self.line(*connection, line),
            Call::Close(connection) => {
                self.sent_ahead(*connection);
                self.frame(b'x', *connection, b"");
            }
            Call::Reading(port, value) => self.frame(b'r', *port, &[*value]),
            Call::Wait(microseconds) => self.wait(*microseconds),
            Call::AnotherForm => self.another_form(),
        }
    }

    /// The same call for the hub beside; waits have passed there.
    fn follow(&mut self, call: &Call) {
        match call {
            Call::Line(connection, line) => drop(self.hub.line(u64::from(*connection), line)),
            Call::Close(connection) => drop(self.hub.close(u64::from(*connection))),
            Call::Reading(port, value) => drop(self.hub.read_contact(u64::from(*port), u64::from(*value))),
            Call::Wait(_) | Call::AnotherForm => (),
        }
    }

    // ---- Time

    fn pass(&mut self, microseconds: u32) {
        let connection = self.random.pick(&[0, 0, 1, 9, 255]);
        self.frame(b'w', connection, &microseconds.to_be_bytes());
        self.hub.wait(u64::from(microseconds));
    }

    fn wait(&mut self, microseconds: u32) {
        let mut left = microseconds;
        for _ in 0..self.random.pick(&[0, 1, 2, 4]) {
            if let Some(part) = self.edge().filter(|part| *part < left) {
                self.pass(part);
                self.ask();
                left -= part;
            }
        }
        self.pass(left);
    }

    /// How long it is to an edge of some connector's carrier or level, or to a microsecond before or after.
    fn edge(&mut self) -> Option<u32> {
        let port = self.random.between(1, 3);
        let edge = self.end_of_a_count(port).or_else(|| self.passing_of_a_percent(port))?;
        let moment = edge.0 + self.random.pick(&[0, 1, 1, 2]);
        let after = moment.checked_sub(self.hub.now.0 + 1)?;
        u32::try_from(after).ok()
    }

    /// The end of some on or off count that is being transmitted.
    fn end_of_a_count(&mut self, port: u64) -> Option<Moment> {
        let sending = self.hub.connector(port).sending()?;
        let finished = sending.copies_finished(self.hub.now);
        let copy = &sending.copies[finished..][self.random.pick(&[0, 0, 1]).min(sending.copies.len() - finished - 1)];
        let counts = self.random.between(1, copy.counts.len() as u64) as usize;
        let place = Periods(copy.begins.0 + copy.counts[..counts].iter().map(|count| u128::from(*count)).sum::<u128>());
        Some(sending.first_moment_at(place))
    }

    fn passing_of_a_percent(&mut self, port: u64) -> Option<Moment> {
        let ahead = percents_ahead(&self.hub.connector(port).lamp()?, self.hub.now);
        ahead.first()?;
        Some(self.random.pick(&ahead))
    }

    // ---- The whole

    fn ask(&mut self) {
        let connection = self.random.pick(&[0, 0, 3, 255]);
        self.frame(b'c', connection, b"");
        if self.random.one_in(2) {
            self.frame(b'l', connection, b"");
        }
        if self.random.one_in(4) {
            self.frame(b'd', connection, b"");
        }
    }

    fn write_out(&mut self) {
        while self.place < self.calls.len() {
            if self.random.one_in(4) {
                self.send_ahead(None);
            }
            let call = std::mem::replace(&mut self.calls[self.place], Call::AnotherForm);
            self.place += 1;
            self.call(&call);
            self.follow(&call);
            self.ask();
            if self.random.one_in(12) {
                self.another_form();
            }
        }
    }
}

/// The frames of a script. Every third ends within a frame, of several lines or of another form.
pub fn frames(seed: u64, script: &[u8]) -> Vec<u8> {
    let calls = script.split(|byte| *byte == b'\n').map(Call::of).collect();
    let (random, hub, bytes) = (Random(seed), Hub::fresh(), Vec::new());
    let mut frames = Frames { random, hub, calls, place: 0, ahead: [0; CONNECTIONS], bytes };
    frames.write_out();
    if seed % 3 == 0 {
        let kind = if seed % 2 == 0 { b'b' } else { b'q' };
        frames.frame(kind, 0, b"getversion\rgetdevices\rgetstate,2:1\rgetv");
        let left_out = frames.random.between(1, 43) as usize;
        frames.bytes.truncate(frames.bytes.len() - left_out);
    }
    frames.bytes
}

/// Where the frames of a seed are cut into writes: not at all, anywhere, or first in small parts and then anywhere.
pub fn writes(seed: u64, length: usize) -> Vec<Range<usize>> {
    let mut random = Random(seed ^ 0x5eed);
    let mut ends = vec![0];
    let mut end = 0;
    while end < length {
        let most = match seed % 3 {
            0 => MOST_BYTES,
            1 => 3_000,
            _ if end < 1_000 => 12,
            _ => 6_000,
        };
        end = length.min(end + random.between(1, most as u64) as usize);
        ends.push(end);
    }
    ends.windows(2).map(|pair| pair[0]..pair[1]).collect()
}
