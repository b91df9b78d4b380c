//! The clients: up to eight connections, each with a thread that reads from it and one that writes to it.
//!
//! A client has one piece under way at a time: the next is read when it is answered, and when the answers are mostly
//! written. So a client that reads never has much waiting for it, however fast it asks. One that does not read is not
//! waited for: it loses its connection when 64 KB are waiting.

use super::display::complain;
use super::frames::CONNECTIONS;
use super::server::Event;
use super::{spawn, system};
use std::io::{ErrorKind, Read, Write};
use std::net::{Shutdown, TcpStream};
use std::sync::mpsc::SyncSender;
use std::sync::{Arc, Condvar, Mutex, MutexGuard};
use std::time::{Duration, Instant};

/// Bytes that may wait for a client.
const MOST_WAITING: usize = 65_536;
/// With more than this waiting for it, a client's next piece is read a little later.
const MUCH_WAITING: usize = 16_384;
/// But not for a client that has read nothing for so long.
const PATIENCE: Duration = Duration::from_secs(1);
/// Of what a client sends, so much is read at once: few enough for all answers to find room behind `MUCH_WAITING`.
const PIECE: usize = 4096;
/// What the system keeps for a client beside what waits here.
const SEND_BUFFER: i32 = 16_384;
/// A write that cannot go on comes back this often, to see whether it still should.
const WRITE_TIMEOUT: Duration = Duration::from_millis(200);

#[derive(Clone, Copy, PartialEq)]
enum Course {
    Open,
    /// The last bytes are written, until this moment at most.
    Closing(Instant),
    Cut,
}

struct State {
    waiting: Vec<u8>,
    /// Of what was waiting, so many bytes are being written.
    in_hand: usize,
    /// When some bytes were last taken by the client, or had nothing before them.
    moved: Instant,
    /// A piece was handed on and is not yet answered.
    asked: bool,
    course: Course,
}

pub struct Client {
    stream: TcpStream,
    state: Mutex<State>,
    changed: Condvar,
}

impl Client {
    fn of(stream: TcpStream) -> Client {
        let (moved, course) = (Instant::now(), Course::Open);
        let state = State { waiting: Vec::new(), in_hand: 0, moved, asked: false, course };
        Client { stream, state: Mutex::new(state), changed: Condvar::new() }
    }

    fn state(&self) -> MutexGuard<'_, State> {
        self.state.lock().unwrap_or_else(|poisoned| poisoned.into_inner())
    }

    fn wait<'a>(&self, state: MutexGuard<'a, State>) -> MutexGuard<'a, State> {
        self.changed.wait(state).unwrap_or_else(|poisoned| poisoned.into_inner())
    }

    fn wait_at_most<'a>(&self, state: MutexGuard<'a, State>, most: Duration) -> MutexGuard<'a, State> {
        self.changed.wait_timeout(state, most).unwrap_or_else(|poisoned| poisoned.into_inner()).0
    }

    /// Leaves bytes for the client. It never waits: where there are too many, the client loses its connection.
    fn leave(&self, bytes: &[u8]) {
        let mut state = self.state();
        if state.course != Course::Open {
            return;
        }
        if state.waiting.len() + state.in_hand + bytes.len() > MOST_WAITING {
            return self.cut(state);
        }
        if state.waiting.is_empty() && state.in_hand == 0 {
            state.moved = Instant::now();
        }
        state.waiting.extend(bytes);
        self.changed.notify_all();
    }

    /// Both threads of the client end by this.
    fn cut(&self, mut state: MutexGuard<'_, State>) {
        state.course = Course::Cut;
        state.waiting.clear();
        self.changed.notify_all();
        // a connection that is gone already cannot be shut down, and need not be
        let _ = self.stream.shutdown(Shutdown::Both);
    }

    /// The client's piece is answered.
    fn answered(&self) {
        self.state().asked = false;
        self.changed.notify_all();
    }

    /// No more will be left for it; what waits is written, for a while.
    fn close(&self) {
        let mut state = self.state();
        if state.course == Course::Open {
            state.course = Course::Closing(Instant::now() + PATIENCE);
        }
        self.changed.notify_all();
    }

    // ---- The thread that writes

    fn write(&self) {
        while let Some(bytes) = self.next_bytes() {
            if !self.write_all(&bytes) {
                break;
            }
        }
        self.cut(self.state());
    }

    /// What waits, as soon as something does; none where no more is to be written.
    fn next_bytes(&self) -> Option<Vec<u8>> {
        let mut state = self.state();
        while state.waiting.is_empty() && state.course == Course::Open {
            state = self.wait(state);
        }
        let bytes = std::mem::take(&mut state.waiting);
        state.in_hand = bytes.len();
        Some(bytes).filter(|bytes| !bytes.is_empty() && state.course != Course::Cut)
    }

    fn write_all(&self, bytes: &[u8]) -> bool {
        let mut rest = bytes;
        while !rest.is_empty() {
            match (&self.stream).write(rest) {
                Ok(number) => {
                    rest = &rest[number..];
                    self.moved(rest.len());
                }
                Err(error) if is_timeout(error.kind()) && self.goes_on() => (),
                Err(error) if error.kind() == ErrorKind::Interrupted => (),
                Err(_) => return false,
            }
        }
        true
    }

    fn moved(&self, in_hand: usize) {
        let mut state = self.state();
        state.in_hand = in_hand;
        state.moved = Instant::now();
        self.changed.notify_all();
    }

    fn goes_on(&self) -> bool {
        match self.state().course {
            Course::Open => true,
            Course::Closing(end) => Instant::now() < end,
            Course::Cut => false,
        }
    }

    // ---- The thread that reads

    /// Hands on what the client sends, and in the end that it has left.
    fn read(&self, connection: u8, events: &SyncSender<Event>) {
        let mut block = [0; PIECE];
        loop {
            match (&self.stream).read(&mut block) {
                Ok(0) => break,
                Ok(number) => {
                    self.state().asked = true;
                    let piece = Event::Piece { connection, bytes: block[..number].to_vec() };
                    if events.send(piece).is_err() {
                        return;
                    }
                    self.wait_for_answers();
                }
                Err(error) if error.kind() == ErrorKind::Interrupted => (),
                Err(_) => break,
            }
        }
        // where nobody takes it, the server has ended
        let _ = events.send(Event::Left { connection });
    }

    /// Waits until the piece is answered and the client has read most of what it is sent, if it reads.
    fn wait_for_answers(&self) {
        let mut state = self.state();
        while state.asked {
            state = self.wait(state);
        }
        while state.waiting.len() + state.in_hand > MUCH_WAITING && state.moved.elapsed() < PATIENCE {
            let left = PATIENCE.saturating_sub(state.moved.elapsed());
            state = self.wait_at_most(state, left);
        }
    }
}

fn is_timeout(kind: ErrorKind) -> bool {
    kind == ErrorKind::WouldBlock || kind == ErrorKind::TimedOut
}

/// The connections that are open, each in the place of its number.
#[derive(Default)]
pub struct Clients(Mutex<[Option<Arc<Client>>; CONNECTIONS]>);

impl Clients {
    fn places(&self) -> MutexGuard<'_, [Option<Arc<Client>>; CONNECTIONS]> {
        self.0.lock().unwrap_or_else(|poisoned| poisoned.into_inner())
    }

    fn at(&self, connection: u8) -> Option<Arc<Client>> {
        self.places().get(usize::from(connection)).cloned().flatten()
    }

    /// Gives a connection the lowest free number. A ninth is closed at once, and so is one that cannot be served.
    pub fn arrived(&self, stream: TcpStream, events: &SyncSender<Event>) {
        let mut places = self.places();
        let Some(number) = places.iter().position(Option::is_none) else {
            return;
        };
        match start(stream, number as u8, events.clone()) {
            Ok(client) => places[number] = Some(client),
            Err(why) => complain(&format!("a connection was closed: {why}")),
        }
    }

    pub fn leave(&self, connection: u8, bytes: &[u8]) {
        if let Some(client) = self.at(connection) {
            client.leave(bytes);
        }
    }

    pub fn answered(&self, connection: u8) {
        if let Some(client) = self.at(connection) {
            client.answered();
        }
    }

    /// Closes a connection, whose number is free from now on.
    pub fn left(&self, connection: u8) {
        let client = self.places().get_mut(usize::from(connection)).and_then(Option::take);
        if let Some(client) = client {
            client.close();
        }
    }

    /// Closes all, and waits until what they are sent is written or given up.
    pub fn end(&self) {
        let all: Vec<Arc<Client>> = self.places().iter_mut().filter_map(Option::take).collect();
        all.iter().for_each(|client| client.close());
        for client in all {
            let mut state = client.state();
            while state.course != Course::Cut {
                state = client.wait(state);
            }
        }
    }
}

/// A client with its two threads.
fn start(stream: TcpStream, connection: u8, events: SyncSender<Event>) -> Result<Arc<Client>, String> {
    let prepared = stream
        .set_nodelay(true)
        .and_then(|()| stream.set_write_timeout(Some(WRITE_TIMEOUT)))
        .and_then(|()| system::limit_send_buffer(&stream, SEND_BUFFER))
        .and_then(|()| system::notice_silent_ends(&stream));
    prepared.map_err(|error| error.to_string())?;
    let client = Arc::new(Client::of(stream));
    let (writer, reader) = (client.clone(), client.clone());
    spawn("writing", move || writer.write())?;
    let reading = spawn("reading", move || reader.read(connection, &events));
    if reading.is_err() {
        client.cut(client.state());
    }
    reading.map(|_| client)
}
