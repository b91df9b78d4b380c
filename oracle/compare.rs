//! compare check FIRST COUNT LINES HUB BENCH..: runs the scripts of COUNT seeds from FIRST on through two programs, the oracle and the bench
//! (given by the words of its command), and compares what they print byte for byte. It prints a table of what the scripts reached, and fails
//! where something was not reached or the two differ; then it prints the shortest script it finds that still shows the difference.
//! compare notice FIRST COUNT LINES HUB BENCH..: prints the first seed whose script shows a difference, and fails if none does.

#[path = "programs.rs"]
mod programs;
#[path = "reached.rs"]
mod reached;
#[path = "scripts.rs"]
#[allow(dead_code)] // only the script of a seed is asked for here
mod scripts;

use reached::{aims, Aim, Tally};
use scripts::hub::script_lines;
use std::process::exit;
use std::sync::atomic::{AtomicU64, Ordering};
use std::sync::Mutex;
use std::time::Instant;

/// What a program prints on a script. A program that fails ends the comparison.
fn output(words: &[String], script: &[u8]) -> Vec<u8> {
    programs::output(words, script).unwrap_or_else(|why| fail(&why))
}

fn fail(why: &str) -> ! {
    eprintln!("compare: {why}");
    exit(2);
}

struct Programs {
    hub: Vec<String>,
    bench: Vec<String>,
}

impl Programs {
    fn differ(&self, script: &[u8]) -> bool {
        output(&self.hub, script) != output(&self.bench, script)
    }

    /// Leaves out lines, many at a time and then single ones, as long as the difference stays.
    fn shortest(&self, script: &[u8]) -> Vec<u8> {
        let mut lines: Vec<&[u8]> = script_lines(script).collect();
        let mut chunk = lines.len().div_ceil(2);
        loop {
            let before = lines.len();
            let mut place = 0;
            while place < lines.len() {
                let end = (place + chunk).min(lines.len());
                let without = [&lines[..place], &lines[end..]].concat();
                if self.differ(&without.concat()) {
                    lines = without;
                } else {
                    place = end;
                }
            }
            if chunk == 1 && lines.len() == before {
                return lines.concat();
            }
            chunk = (chunk / 2).max(1);
        }
    }
}

struct Seeds {
    first: u64,
    count: u64,
    lines: usize,
}

impl Seeds {
    /// The least seed whose script shows a difference, with every script before it compared; `watch` sees each script. Seeds are taken in
    /// order, so those below one that was found are in other workers' hands at most, and these finish them.
    fn first_difference(&self, programs: &Programs, workers: u64, watch: impl Fn(&[u8]) + Sync) -> Option<u64> {
        let (next, end) = (AtomicU64::new(self.first), self.first + self.count);
        let found = AtomicU64::new(end);
        let work = || loop {
            let seed = next.fetch_add(1, Ordering::SeqCst);
            if seed >= found.load(Ordering::SeqCst) {
                return;
            }
            let script = scripts::script(seed, self.lines);
            watch(&script);
            if programs.differ(&script) {
                found.fetch_min(seed, Ordering::SeqCst);
            }
        };
        std::thread::scope(|scope| (0..workers).for_each(|_| drop(scope.spawn(work))));
        Some(found.into_inner()).filter(|seed| *seed < end)
    }
}

/// Bytes as they can be read, with what is not printable escaped.
fn readable(bytes: &[u8]) -> String {
    script_lines(bytes).map(|line| format!("    {}\n", line.strip_suffix(b"\n").unwrap_or(line).escape_ascii())).collect()
}

fn report(programs: &Programs, seed: u64, script: &[u8]) {
    let short = programs.shortest(script);
    println!("compare: seed {seed} shows a difference. The shortest script found that shows it:");
    print!("{}", readable(&short));
    println!("  the oracle says:\n{}", readable(&output(&programs.hub, &short)).trim_end());
    println!("  the bench says:\n{}", readable(&output(&programs.bench, &short)).trim_end());
}

fn check(programs: &Programs, seeds: &Seeds) -> bool {
    let aims: Vec<Aim> = aims();
    let whole = Mutex::new(Tally::empty(&aims));
    let start = Instant::now();
    let watch = |script: &[u8]| {
        let mut tally = Tally::empty(&aims);
        tally.watch(&aims, script);
        whole.lock().unwrap_or_else(|poisoned| poisoned.into_inner()).add(&tally);
    };
    let difference = seeds.first_difference(programs, 2, watch);
    if let Some(seed) = difference {
        report(programs, seed, &scripts::script(seed, seeds.lines));
        return false;
    }
    let seconds = start.elapsed().as_secs_f64();
    let (table, all_reached) = whole.lock().unwrap_or_else(|poisoned| poisoned.into_inner()).table(&aims);
    print!("{table}");
    if !all_reached {
        println!("compare: what stands at 0, or a byte value, was not reached");
    }
    let rate = seeds.count as f64 / seconds;
    println!("compare: {} scripts of {} lines alike, {seconds:.1} s, {rate:.1} scripts per second", seeds.count, seeds.lines);
    all_reached
}

fn notice(programs: &Programs, seeds: &Seeds) -> bool {
    let difference = seeds.first_difference(programs, 1, |_| ());
    match difference {
        Some(seed) => println!("noticed at seed {seed}"),
        None => println!("NOT noticed by {} scripts", seeds.count),
    }
    difference.is_some()
}

fn main() {
    let words: Vec<String> = std::env::args().skip(1).collect();
    let numbers: Vec<u64> = words.iter().skip(1).take(3).filter_map(|word| word.parse().ok()).collect();
    let ([first, count, lines], true) = (&numbers[..], words.len() > 5) else {
        fail("usage: compare check|notice FIRST COUNT LINES HUB BENCH..");
    };
    let seeds = Seeds { first: *first, count: *count, lines: *lines as usize };
    let programs = Programs { hub: vec![words[4].clone()], bench: words[5..].to_vec() };
    let passed = match words[0].as_str() {
        "check" => check(&programs, &seeds),
        "notice" => notice(&programs, &seeds),
        other => fail(&format!("{other}: check or notice")),
    };
    exit(i32::from(!passed));
}
