//! frames check FIRST COUNT LINES ORACLE PROGRAM..: gives the scripts of COUNT seeds from FIRST on, as frames, to two
//! programs, the oracle's port and another (given by the words of its command), and compares what they answer byte for
//! byte. It prints a table of what the answers reached, and fails where something was not reached or the two differ.
//! frames notice FIRST COUNT LINES ORACLE PROGRAM..: prints the first seed that shows a difference; fails if none does.
//! frames recorded FILE ORACLE: compares a recording of the socket: FILE was given to a program, FILE.out came back.
//! frames show SEED LINES: writes the frames of a seed.

#[path = "events.rs"]
mod events;
#[path = "random.rs"]
#[allow(dead_code)] // no list is shuffled here
mod random;
#[path = "scripts.rs"]
#[allow(dead_code)] // only the script of a seed is asked for here
mod scripts;

use std::collections::BTreeMap;
use std::io::{self, Write};
use std::ops::Range;
use std::process::{exit, Command, Stdio};
use std::sync::atomic::{AtomicU64, Ordering};
use std::sync::Mutex;
use std::time::Duration;

fn fail(why: &str) -> ! {
    eprintln!("frames: {why}");
    exit(2);
}

// ---- Programs

/// What a program answers to frames that are written in parts. A program that fails ends the comparison.
fn answers(words: &[String], frames: &[u8], parts: &[Range<usize>]) -> Vec<u8> {
    let spawned = Command::new(&words[0]).args(&words[1..]).stdin(Stdio::piped()).stdout(Stdio::piped()).spawn();
    let mut child = spawned.unwrap_or_else(|error| fail(&format!("{}: {error}", words[0])));
    let pipe = child.stdin.take();
    let done = std::thread::scope(|scope| {
        scope.spawn(move || pipe.map(|pipe| write_parts(pipe, frames, parts)));
        child.wait_with_output()
    });
    match done {
        Ok(output) if output.status.success() => output.stdout,
        Ok(output) => fail(&format!("{}: {}", words[0], output.status)),
        Err(error) => fail(&format!("{}: {error}", words[0])),
    }
}

/// Writes part by part, with a moment between two, in which the reader may find that it has no more.
fn write_parts(mut pipe: impl Write, frames: &[u8], parts: &[Range<usize>]) -> io::Result<()> {
    for part in parts {
        pipe.write_all(&frames[part.clone()])?;
        std::thread::sleep(Duration::from_micros(50));
    }
    Ok(())
}

struct Programs {
    oracle: Vec<String>,
    other: Vec<String>,
}

/// The oracle's answers, and the other's where they are others.
struct Compared {
    right: Vec<u8>,
    other: Option<Vec<u8>>,
}

impl Programs {
    fn of(words: &[String]) -> Programs {
        if words.len() < 2 {
            fail("an oracle and the words of another program are needed");
        }
        Programs { oracle: vec![words[0].clone()], other: words[1..].to_vec() }
    }

    fn compare(&self, frames: &[u8], parts: &[Range<usize>]) -> Compared {
        let right = answers(&self.oracle, frames, &[0..frames.len()]);
        let other = Some(answers(&self.other, frames, parts)).filter(|other| *other != right);
        Compared { right, other }
    }

    fn compare_seed(&self, seed: u64, lines: usize) -> Compared {
        let frames = events::frames(seed, &scripts::script(seed, lines));
        self.compare(&frames, &events::writes(seed, frames.len()))
    }
}

// ---- Answers

/// The frames of a run of answers, as far as they are whole.
fn split(mut bytes: &[u8]) -> Vec<&[u8]> {
    let mut frames = Vec::new();
    while bytes.len() >= 4 {
        let end = 4 + usize::from(bytes[2]) * 256 + usize::from(bytes[3]);
        if bytes.len() < end {
            break;
        }
        frames.push(&bytes[..end]);
        bytes = &bytes[end..];
    }
    frames
}

/// What every check has to reach.
const AIMS: [&str; 24] = [
    "reply", "device list", "015", "stopir to another", "completion", "completion for nobody", "completions together",
    "connector transmits", "connector idle", "lamp dark", "lamp set", "relay", "carrier on", "carriers off", "all dark",
    "one lit", "several lit", "full level", "due", "nothing due", "!0", "!102", "!103", "!104",
];

fn aim_of_levels(levels: &[u8]) -> &'static str {
    match levels.iter().filter(|level| **level > 0).count() {
        0 => "all dark",
        _ if levels.contains(&100) => "full level",
        1 => "one lit",
        _ => "several lit",
    }
}

/// What an answer is, behind the one before it.
fn aim(before: &[u8], frame: &[u8]) -> &'static str {
    let (kind, connection, bytes) = (frame[0], frame[1], &frame[4..]);
    match kind {
        b'b' if bytes.starts_with(b"device,") => "device list",
        b'b' if bytes == b"ERR_0:0,015\r" => "015",
        b'b' if bytes.starts_with(b"stopir") && before[0] == b'b' && before[4..] == *bytes => "stopir to another",
        b'b' => "reply",
        b'f' if connection == 255 => "completion for nobody",
        b'f' if before[0] == b'f' => "completions together",
        b'f' => "completion",
        b's' if bytes[0] == 2 => "relay",
        b's' if bytes[3] == 1 => "connector transmits",
        b's' if bytes[2] == 3 && bytes[6] == 0 => "lamp dark",
        b's' if bytes[2] == 3 => "lamp set",
        b's' => "connector idle",
        b'c' if bytes.contains(&1) => "carrier on",
        b'c' => "carriers off",
        b'l' => aim_of_levels(bytes),
        b'd' if bytes.is_empty() => "nothing due",
        b'd' => "due",
        b'!' => match bytes {
            [0, 0] => "!0",
            [0, 102] => "!102",
            [0, 103] => "!103",
            [0, 104] => "!104",
            _ => "another refusal",
        },
        _ => "another frame",
    }
}

#[derive(Default)]
struct Tally(BTreeMap<&'static str, usize>);

impl Tally {
    fn add(&mut self, answers: &[u8]) {
        let mut before: &[u8] = &[0; 4];
        for frame in split(answers) {
            *self.0.entry(aim(before, frame)).or_default() += 1;
            before = frame;
        }
    }

    /// The table, and whether all was reached and nothing else.
    fn table(&self) -> (String, bool) {
        let count = |name: &str| self.0.get(name).copied().unwrap_or(0);
        let table: Vec<String> = AIMS.iter().map(|name| format!("{name} {}", count(name))).collect();
        (table.join(", "), AIMS.iter().all(|name| count(name) > 0) && self.0.keys().all(|name| AIMS.contains(name)))
    }
}

fn report(compared: &Compared) {
    let Some(other) = &compared.other else {
        return;
    };
    let (right, other) = (split(&compared.right), split(other));
    let same = right.iter().zip(&other).take_while(|(one, two)| one == two).count();
    let next = |frames: &[&[u8]]| frames.get(same).map_or(String::new(), |frame| frame.escape_ascii().to_string());
    println!("  the first {same} answers are alike; then the oracle says '{}'", next(&right));
    println!("  and the other says '{}'", next(&other));
}

// ---- Seeds

struct Seeds {
    first: u64,
    count: u64,
    lines: usize,
}

impl Seeds {
    fn of(words: &[String]) -> Seeds {
        let numbers: Vec<u64> = words.iter().take(3).filter_map(|word| word.parse().ok()).collect();
        let [first, count, lines] = numbers[..] else {
            fail("three numbers are needed: FIRST COUNT LINES");
        };
        Seeds { first, count, lines: lines as usize }
    }

    /// The least seed that shows a difference, with every one before it compared; `watch` sees the oracle's answers.
    fn first_difference(&self, programs: &Programs, workers: u64, watch: impl Fn(&[u8]) + Sync) -> Option<u64> {
        let (next, end) = (AtomicU64::new(self.first), self.first + self.count);
        let found = AtomicU64::new(end);
        let work = || loop {
            let seed = next.fetch_add(1, Ordering::SeqCst);
            if seed >= found.load(Ordering::SeqCst) {
                return;
            }
            let compared = programs.compare_seed(seed, self.lines);
            watch(&compared.right);
            if compared.other.is_some() {
                found.fetch_min(seed, Ordering::SeqCst);
            }
        };
        std::thread::scope(|scope| (0..workers).for_each(|_| drop(scope.spawn(work))));
        Some(found.into_inner()).filter(|seed| *seed < end)
    }
}

// ---- The whole

fn check(programs: &Programs, seeds: &Seeds) -> bool {
    let whole = Mutex::new(Tally::default());
    let watch = |answers: &[u8]| whole.lock().unwrap_or_else(|poisoned| poisoned.into_inner()).add(answers);
    if let Some(seed) = seeds.first_difference(programs, 2, watch) {
        println!("frames: seed {seed} shows a difference");
        report(&programs.compare_seed(seed, seeds.lines));
        return false;
    }
    let (table, all_reached) = whole.lock().unwrap_or_else(|poisoned| poisoned.into_inner()).table();
    println!("frames: {table}");
    if !all_reached {
        println!("frames: what stands at 0 was not reached, or there was something else");
    }
    println!("frames: {} scripts of {} lines answered alike", seeds.count, seeds.lines);
    all_reached
}

fn notice(programs: &Programs, seeds: &Seeds) -> bool {
    let difference = seeds.first_difference(programs, 1, |_| ());
    match difference {
        Some(seed) => println!("noticed at seed {seed}"),
        None => println!("NOT noticed by {} scripts", seeds.count),
    }
    difference.is_some()
}

fn recorded(words: &[String]) -> bool {
    let [file, oracle] = words else {
        fail("two words are needed: FILE ORACLE");
    };
    let read = |file: &str| std::fs::read(file).unwrap_or_else(|error| fail(&format!("{file}: {error}")));
    let (frames, came_back) = (read(file), read(&format!("{file}.out")));
    let right = answers(&[oracle.clone()], &frames, &[0..frames.len()]);
    println!("frames: {} answers to {} recorded frames", split(&right).len(), split(&frames).len());
    let other = Some(came_back).filter(|other| *other != right);
    let passed = other.is_none() && !right.is_empty();
    report(&Compared { right, other });
    passed
}

fn show(words: &[String]) -> bool {
    let numbers: Vec<u64> = words.iter().filter_map(|word| word.parse().ok()).collect();
    let [seed, lines] = numbers[..] else {
        fail("two numbers are needed: SEED LINES");
    };
    let frames = events::frames(seed, &scripts::script(seed, lines as usize));
    io::stdout().write_all(&frames).is_ok()
}

fn main() {
    let words: Vec<String> = std::env::args().skip(1).collect();
    let (name, rest) = words.split_first().unwrap_or_else(|| fail("check, notice, recorded or show"));
    let programs = || Programs::of(rest.get(3..).unwrap_or(&[]));
    let passed = match name.as_str() {
        "check" => check(&programs(), &Seeds::of(rest)),
        "notice" => notice(&programs(), &Seeds::of(rest)),
        "recorded" => recorded(rest),
        "show" => show(rest),
        other => fail(&format!("{other}: check, notice, recorded or show")),
    };
    exit(i32::from(!passed));
}
