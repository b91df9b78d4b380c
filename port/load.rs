//! load SECONDS SOCKET WORDS..: eight clients with a mixed load on the socket, with the program that WORDS run behind
//! it. It prints how many requests were served and how many lost, the memory of both processes at the start and at the
//! end, and the round trip of a getstate. It fails if a request was lost.
//!
//! A request is lost if its reply, or the completion of a sendir that was taken, does not come within ten seconds.
//! Behind each sendir goes a getversion: what comes before its reply tells whether the sendir was taken.

#[path = "../oracle/random.rs"]
#[allow(dead_code)] // no list is shuffled here
mod random;

use random::Random;
use std::io::{BufRead, BufReader, Write};
use std::net::TcpStream;
use std::process::{exit, Child, Command, ExitStatus, Stdio};
use std::sync::atomic::{AtomicU64, Ordering};
use std::thread::sleep;
use std::time::{Duration, Instant};

const CLIENTS: u64 = 8;
const PATIENCE: Duration = Duration::from_secs(10);
/// The longest pause of a client between two requests, in microseconds.
const MOST_PAUSE: u64 = 2000;

fn fail(why: &str) -> ! {
    eprintln!("load: {why}");
    exit(1);
}

// ---- What is measured

/// How many round trips took how many microseconds; the last place holds all that took longer.
struct Times(Vec<AtomicU64>);

impl Times {
    fn empty() -> Times {
        Times((0..1_000_001).map(|_| AtomicU64::new(0)).collect())
    }

    fn add(&self, time: Duration) {
        let place = (time.as_micros() as usize).min(self.0.len() - 1);
        self.0[place].fetch_add(1, Ordering::Relaxed);
    }

    fn count(&self) -> u64 {
        self.0.iter().map(|count| count.load(Ordering::Relaxed)).sum()
    }

    /// The microseconds that this part of a thousand did not exceed.
    fn part(&self, thousandths: u64) -> usize {
        let wanted = self.count() * thousandths / 1000;
        let mut sum = 0;
        let mut passed = self.0.iter().take_while(|count| {
            sum += count.load(Ordering::Relaxed);
            sum < wanted
        });
        passed.by_ref().count()
    }
}

struct Measured {
    served: AtomicU64,
    completions: AtomicU64,
    lost: AtomicU64,
    times: Times,
}

// ---- A client

struct Client<'a> {
    writer: TcpStream,
    lines: BufReader<TcpStream>,
    random: Random,
    measured: &'a Measured,
    id: u64,
}

/// What the next line is waited for in vain.
struct Lost;

impl<'a> Client<'a> {
    fn connect(address: &str, number: u64, measured: &'a Measured) -> std::io::Result<Client<'a>> {
        let writer = TcpStream::connect(address)?;
        writer.set_nodelay(true)?;
        writer.set_read_timeout(Some(PATIENCE))?;
        let lines = BufReader::new(writer.try_clone()?);
        Ok(Client { writer, lines, random: Random(number), measured, id: number })
    }

    fn send(&mut self, text: &str) -> Result<(), Lost> {
        self.writer.write_all(text.as_bytes()).map_err(|_| Lost)
    }

    fn line(&mut self) -> Result<String, Lost> {
        let mut line = Vec::new();
        match self.lines.read_until(b'\r', &mut line) {
            Ok(_) if line.ends_with(b"\r") => Ok(String::from_utf8_lossy(&line[..line.len() - 1]).into_owned()),
            _ => Err(Lost),
        }
    }

    fn expect(&mut self, start: &str) -> Result<(), Lost> {
        let line = self.line()?;
        if line.starts_with(start) {
            return Ok(());
        }
        eprintln!("load: '{line}' and not '{start}'");
        Err(Lost)
    }

    /// A request and the start of each line of its reply.
    fn ask(&mut self, request: &str, reply: &[&str]) -> Result<(), Lost> {
        self.send(&format!("{request}\r"))?;
        reply.iter().try_for_each(|start| self.expect(start))?;
        self.measured.served.fetch_add(1, Ordering::Relaxed);
        Ok(())
    }

    fn timed_getstate(&mut self) -> Result<(), Lost> {
        let relay = self.random.between(1, 3);
        let start = Instant::now();
        self.ask(&format!("getstate,2:{relay}"), &[&format!("state,2:{relay},")])?;
        self.measured.times.add(start.elapsed());
        Ok(())
    }

    /// Twenty requests at once.
    fn burst(&mut self) -> Result<(), Lost> {
        self.send(&"getstate,2:2\r".repeat(20))?;
        (0..20).try_for_each(|_| self.expect("state,2:2,"))?;
        self.measured.served.fetch_add(20, Ordering::Relaxed);
        Ok(())
    }

    /// A sendir of 5 to 20 ms that is left alone; or one of 4 s, which is halted if it is taken.
    fn transmit(&mut self) -> Result<(), Lost> {
        let (port, is_halted) = (self.random.between(1, 3), self.random.one_in(3));
        self.id = (self.id + CLIENTS) % 65_536;
        let id = self.id;
        let (copies, count) = if is_halted { (20, 4000) } else { (self.random.between(1, 4), 100) };
        self.send(&format!("sendir,1:{port},{id},40000,{copies},1,{count},{count}\rgetversion\r"))?;
        let first = self.line()?;
        self.measured.served.fetch_add(2, Ordering::Relaxed);
        if first == format!("busyIR,1:{port},{id}") {
            return self.expect("LH-01");
        }
        if first != "LH-01" {
            eprintln!("load: '{first}' behind a sendir");
            return Err(Lost);
        }
        if is_halted {
            return self.ask(&format!("stopir,1:{port}"), &[&format!("stopir,1:{port}")]);
        }
        self.expect(&format!("completeir,1:{port},{id}"))?;
        self.measured.completions.fetch_add(1, Ordering::Relaxed);
        Ok(())
    }

    fn request(&mut self) -> Result<(), Lost> {
        let (port, state) = (self.random.between(1, 3), self.random.below(2));
        match self.random.below(100) {
            0..=39 => self.timed_getstate(),
            40..=54 => self.ask(&format!("setstate,2:{port},{state}"), &[&format!("state,2:{port},{state}")]),
            55..=64 => self.ask(&format!("get_IR,1:{port}"), &[&format!("IR,1:{port},IR")]),
            65..=69 => self.ask("getversion", &["LH-01"]),
            70..=72 => self.ask("getdevices", &["device,0", "device,1", "device,2", "endlist"]),
            73..=76 => self.ask("nothing of the kind", &["ERR_0:0,001"]),
            77 => self.ask(&"long,".repeat(1000), &["ERR_0:0,015"]),
            78..=79 => self.burst(),
            _ => self.transmit(),
        }
    }

    fn work(&mut self, end: Instant) {
        while Instant::now() < end {
            if self.request().is_err() {
                self.measured.lost.fetch_add(1, Ordering::Relaxed);
                return;
            }
            sleep(Duration::from_micros(self.random.below(MOST_PAUSE)));
        }
    }
}

// ---- The served hub

struct Served {
    socket: Child,
    address: String,
}

impl Served {
    fn start(words: &[String]) -> Result<Served, String> {
        let mut command = Command::new(&words[0]);
        command.args(["127.0.0.1:0", "--program"]).args(&words[1..]).stdin(Stdio::null()).stdout(Stdio::piped());
        let mut socket = command.spawn().map_err(|error| format!("{}: {error}", words[0]))?;
        let mut shown = BufReader::new(socket.stdout.take().ok_or("no output")?).lines();
        let start = shown.next().and_then(Result::ok).ok_or("it does not start")?;
        let address = start.split_once(" at ").and_then(|(_, rest)| rest.split_once(';'));
        let (address, _) = address.ok_or("its first line has no address")?;
        std::thread::spawn(move || shown.count());
        Ok(Served { socket, address: address.to_string() })
    }

    /// The kilobytes that the socket and the program behind it have in memory.
    fn memory(&self) -> String {
        let id = self.socket.id();
        let children = std::fs::read_to_string(format!("/proc/{id}/task/{id}/children")).unwrap_or_default();
        let program = children.split_whitespace().next().and_then(|child| child.parse().ok());
        let kilobytes = |process| resident(process).unwrap_or_default();
        format!("socket {} KB, program {} KB", kilobytes(id), program.map_or(0, kilobytes))
    }

    fn end(mut self) -> Result<ExitStatus, String> {
        let sent = Command::new("kill").arg(self.socket.id().to_string()).status();
        sent.map_err(|error| error.to_string())?;
        self.socket.wait().map_err(|error| error.to_string())
    }
}

fn resident(process: u32) -> Option<u64> {
    let status = std::fs::read_to_string(format!("/proc/{process}/status")).ok()?;
    status.lines().find_map(|line| line.strip_prefix("VmRSS:"))?.trim().strip_suffix(" kB")?.trim().parse().ok()
}

// ---- The whole

/// Lets all clients work until the end; the memory a second after the start and at the end.
fn work(served: &Served, seconds: u64, measured: &Measured) -> Result<(String, String), String> {
    let connect = |number| Client::connect(&served.address, number, measured);
    let clients: std::io::Result<Vec<Client>> = (0..CLIENTS).map(connect).collect();
    let end = Instant::now() + Duration::from_secs(seconds);
    let memory = std::thread::scope(|scope| -> std::io::Result<(String, String)> {
        for mut client in clients? {
            scope.spawn(move || client.work(end));
        }
        sleep(Duration::from_secs(1));
        let first = served.memory();
        sleep(end.saturating_duration_since(Instant::now()));
        Ok((first, served.memory()))
    });
    memory.map_err(|error| error.to_string())
}

fn load(seconds: u64, words: &[String]) -> Result<bool, String> {
    let served = Served::start(words)?;
    let zero = || AtomicU64::new(0);
    let measured = Measured { served: zero(), completions: zero(), lost: zero(), times: Times::empty() };
    let (first, last) = work(&served, seconds, &measured)?;
    let status = served.end()?;
    let count = |number: &AtomicU64| number.load(Ordering::Relaxed);
    let (requests, lost) = (count(&measured.served), count(&measured.lost));
    println!("{requests} requests served in {seconds} s, {} completions, {lost} lost", count(&measured.completions));
    println!("memory after a second: {first}; at the end: {last}");
    let (half, most, times) = (measured.times.part(500), measured.times.part(990), measured.times.count());
    println!("getstate: {times} round trips, median {half} us, 99th percentile {most} us; {status}");
    Ok(lost == 0 && requests > 0 && status.success())
}

fn main() {
    let words: Vec<String> = std::env::args().skip(1).collect();
    let seconds = words.first().and_then(|word| word.parse().ok());
    let (Some(seconds), true) = (seconds, words.len() > 2) else {
        fail("usage: load SECONDS SOCKET WORDS..");
    };
    match load(seconds, &words[1..]) {
        Ok(passed) => exit(i32::from(!passed)),
        Err(why) => fail(&why),
    }
}
