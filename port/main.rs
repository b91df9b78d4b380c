//! The socket of `./run port`: it accepts connections and measures time, and hands both on to a program that speaks the
//! frames of docs/PORT-OTHER.md, which does everything that document 01 says. What that says is written to the connections.
//!
//! port [ADDRESS:PORT] [--record FILE] --program WORDS..: listens at 127.0.0.1:4998 unless said otherwise; port 0 is
//! any free one. WORDS is the command of the program. With --record all frames that it is given go into FILE, all that
//! come back into FILE.out, and the carriers and the lamps' levels are asked for after each event.

mod answers;
mod clients;
mod clock;
mod display;
mod frames;
mod options;
mod program;
mod readings;
mod record;
mod server;
mod system;

use display::Display;
use options::Options;
use program::Program;
use record::Record;
use server::{Event, Server};
use std::net::{SocketAddr, TcpListener, TcpStream};
use std::process::ExitCode;
use std::sync::mpsc::{sync_channel, SyncSender};
use std::thread::{self, JoinHandle};
use std::time::Duration;

/// So many events may wait for their turn; who has one more waits itself.
const EVENTS: usize = 64;

fn main() -> ExitCode {
    match serve() {
        Ok(()) => ExitCode::SUCCESS,
        Err(why) => {
            display::complain(&why);
            ExitCode::FAILURE
        }
    }
}

fn serve() -> Result<(), String> {
    let options = Options::of(std::env::args().skip(1))?;
    // before there is any thread, so that each of them leaves the signals to the one that waits for them
    let signals = system::Signals::blocked().map_err(|error| format!("signals: {error}"))?;
    let (listener, at) = listen(&options.address)?;
    let recorded = Record::both(options.record.as_deref())?;
    let program = Program::start(&options.program)?;
    let (events, coming) = sync_channel(EVENTS);
    let display = Display::start()?;
    let server = Server::start(program, display, recorded, coming, events.clone())?;
    let ending = events.clone();
    spawn("signals", move || signals.wait(|| drop(ending.send(Event::End))))?;
    let read = events.clone();
    spawn("readings", move || readings::read(|event| read.send(event).is_ok()))?;
    spawn("accepting", move || accept(&listener, &events))?;
    display::say(&format!("Umbrefall's hub listens at {at}; `r 2 0` here is a contact reading, Ctrl-C ends it\n"));
    server.run()
}

/// Listens at an address; what is answered beside it names the port that was given.
fn listen(address: &str) -> Result<(TcpListener, SocketAddr), String> {
    let listener = TcpListener::bind(address).map_err(|error| format!("{address}: {error}"))?;
    let at = listener.local_addr().map_err(|error| format!("{address}: {error}"))?;
    Ok((listener, at))
}

/// Hands on each connection. Where one cannot be had (too many files are open, say) it tries again a little later.
fn accept(listener: &TcpListener, events: &SyncSender<Event>) {
    loop {
        let arrived: Option<TcpStream> = listener.accept().ok().map(|(stream, _)| stream);
        match arrived {
            Some(stream) => {
                if events.send(Event::Arrived(stream)).is_err() {
                    return;
                }
            }
            None => thread::sleep(Duration::from_millis(100)),
        }
    }
}

/// A thread with a name.
fn spawn<T: Send + 'static>(name: &str, work: impl FnOnce() -> T + Send + 'static) -> Result<JoinHandle<T>, String> {
    thread::Builder::new().name(name.to_string()).spawn(work).map_err(|error| format!("thread {name}: {error}"))
}
