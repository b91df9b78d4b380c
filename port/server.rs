//! The server: takes events in their order, and tells the program each of them with the time that has passed before it.

use super::answers::Answers;
use super::clients::Clients;
use super::clock::{Clock, Wait};
use super::display::Display;
use super::frames::{put, LONGEST_WAIT};
use super::program::Program;
use super::record::Record;
use super::spawn;
use std::net::TcpStream;
use std::sync::mpsc::{channel, Receiver, RecvTimeoutError, Sender, SyncSender};
use std::sync::Arc;
use std::thread::JoinHandle;

pub enum Event {
    Arrived(TcpStream),
    Piece { connection: u8, bytes: Vec<u8> },
    Left { connection: u8 },
    Reading { port: u8, state: u8 },
    /// It shall end.
    End,
    /// The program has ended.
    Lost,
}

/// So many events at most are told at once.
const BATCH: usize = 64;

pub struct Server {
    program: Program,
    clients: Arc<Clients>,
    clock: Clock,
    record: Option<Record>,
    coming: Receiver<Event>,
    /// For the clients' threads.
    events: SyncSender<Event>,
    /// The wait before each event, for the thread that reads the answers.
    waits: Sender<Wait>,
    /// What that thread hears to be due, once for each event.
    due: Receiver<Option<u64>>,
    answers: JoinHandle<Result<(), String>>,
    /// What the next completion is due after, from what was told on; or when to ask again.
    next_due: u64,
}

/// What is told to the program at once, and whom it concerns.
#[derive(Default)]
struct Batch {
    frames: Vec<u8>,
    /// How often it asks what is due.
    asked: usize,
    /// The connections whose piece is in it.
    pieces: Vec<u8>,
    left: Option<u8>,
    end: Option<End>,
}

enum End {
    Wanted,
    Lost,
}

impl Server {
    pub fn start(
        mut program: Program,
        display: Display,
        recorded: Option<(Record, Record)>,
        coming: Receiver<Event>,
        events: SyncSender<Event>,
    ) -> Result<Server, String> {
        let (given, back) = recorded.unzip();
        let clients = Arc::new(Clients::default());
        let (waits, to_hear) = channel();
        let (heard, due) = channel();
        let output = program.output()?;
        let answers = Answers {
            clients: clients.clone(),
            events: events.clone(),
            display,
            record: back,
            waits: to_hear,
            due: heard,
        };
        let answers = spawn("answers", move || answers.read(output))?;
        let clock = Clock::start();
        let next_due = LONGEST_WAIT;
        Ok(Server { program, clients, clock, record: given, coming, events, waits, due, answers, next_due })
    }

    /// Serves until it is told to end.
    pub fn run(mut self) -> Result<(), String> {
        let served = self.serve();
        self.clients.end();
        let ended = self.program.end();
        // the last answers are recorded and shown
        let heard = self.answers.join().unwrap_or(Err("the thread of the answers failed".to_string()));
        heard.and(served)?;
        match ended? {
            status if status.success() => Ok(()),
            status => Err(format!("the program ended with {status}")),
        }
    }

    fn serve(&mut self) -> Result<(), String> {
        loop {
            let batch = self.next_batch();
            self.tell(&batch)?;
            self.settle(&batch);
            match batch.end {
                None => (),
                Some(End::Wanted) => return Ok(()),
                Some(End::Lost) => return Err(self.program.lost()),
            }
        }
    }

    /// Waits for an event, or for the next completion's moment, and takes all events that have come by then. A client's
    /// leaving is the last of its batch: its number is free when the batch is answered, and not before.
    fn next_batch(&mut self) -> Batch {
        let mut batch = Batch::default();
        match self.coming.recv_timeout(self.clock.until(self.next_due)) {
            Ok(event) => self.take(event, &mut batch),
            Err(RecvTimeoutError::Timeout) => self.let_pass(&mut batch),
            // the signals' thread has a sender as long as it lives
            Err(RecvTimeoutError::Disconnected) => batch.end = Some(End::Wanted),
        }
        while batch.left.is_none() && batch.end.is_none() && batch.asked < BATCH {
            let Ok(event) = self.coming.try_recv() else {
                break;
            };
            self.take(event, &mut batch);
        }
        batch
    }

    fn take(&mut self, event: Event, batch: &mut Batch) {
        match event {
            Event::Arrived(stream) => self.clients.arrived(stream, &self.events),
            Event::Piece { connection, bytes } => {
                self.put(batch, b'b', connection, &bytes);
                batch.pieces.push(connection);
            }
            Event::Left { connection } => {
                self.put(batch, b'x', connection, b"");
                batch.left = Some(connection);
            }
            Event::Reading { port, state } => self.put(batch, b'r', port, &[state]),
            Event::End => batch.end = Some(End::Wanted),
            Event::Lost => batch.end = Some(End::Lost),
        }
    }

    /// Puts an event with the time before it, and asks what is due after it.
    fn put(&mut self, batch: &mut Batch, kind: u8, connection: u8, bytes: &[u8]) {
        self.put_waits(batch);
        put(&mut batch.frames, kind, connection, bytes);
        self.ask(batch);
    }

    /// Lets time pass alone.
    fn let_pass(&mut self, batch: &mut Batch) {
        self.put_waits(batch);
        self.ask(batch);
    }

    /// Puts the waits up to the present moment; one that is longer than a wait may be is told in parts.
    fn put_waits(&mut self, batch: &mut Batch) {
        let now = self.clock.now();
        loop {
            let (wait, reached) = self.clock.next_wait(now);
            if wait.microseconds() > 0 {
                put(&mut batch.frames, b'w', 0, &(wait.microseconds() as u32).to_be_bytes());
            }
            // who hears it is there until the program has ended
            let _ = self.waits.send(wait);
            if reached {
                return;
            }
            self.ask(batch);
        }
    }

    fn ask(&mut self, batch: &mut Batch) {
        if self.record.is_some() {
            put(&mut batch.frames, b'c', 0, b"");
            put(&mut batch.frames, b'l', 0, b"");
        }
        put(&mut batch.frames, b'd', 0, b"");
        batch.asked += 1;
    }

    /// Gives a batch to the program and waits for its answers.
    fn tell(&mut self, batch: &Batch) -> Result<(), String> {
        if let Some(record) = &mut self.record {
            record.put(&batch.frames)?;
        }
        if self.program.give(&batch.frames).is_err() {
            return Err(self.program.lost());
        }
        for _ in 0..batch.asked {
            let due = self.due.recv().map_err(|_| self.program.lost())?;
            self.next_due = due.unwrap_or(LONGEST_WAIT);
        }
        Ok(())
    }

    fn settle(&mut self, batch: &Batch) {
        batch.pieces.iter().for_each(|connection| self.clients.answered(*connection));
        if let Some(connection) = batch.left {
            self.clients.left(connection);
        }
    }
}
