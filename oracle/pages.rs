//! What tests/logbook gives to a logbook, and what it asks of the answers.
//! pages replies FIRST COUNT LINES BENCH..: prints every reply that the bench, given by the words of its command, writes on the scripts of COUNT
//! seeds from FIRST on, a line each.
//! pages page SEED: prints an input for a logbook, the same for the same seed and the same replies, which it reads on standard input.
//! pages asked PAGE OUTPUT: compares each request that a logbook composed of a page with the oracle's hub, and each refusal with the hub's
//! answer to the request spelled out.

#[path = "programs.rs"]
mod programs;
#[path = "scripts.rs"]
#[allow(dead_code)] // only the script of a seed is asked for here
mod scripts;

#[path = "random.rs"]
#[allow(dead_code)] // only some ways to choose are needed here
mod random;

use random::Random;
use scripts::hub::{printed, Command, Hub, Pair};
use std::collections::{BTreeMap, BTreeSet};
use std::io::{self, Read, Write};
use std::process::exit;

fn fail(why: &str) -> ! {
    eprintln!("pages: {why}");
    exit(2);
}

// ---- Replies

/// The reply in a line that the bench printed: `connection reply` or `@moment connection reply`; none in a refusal.
fn reply_in(line: &[u8]) -> Option<&[u8]> {
    let items = match line.first() {
        None | Some(b'!') => return None,
        Some(b'@') => 3,
        Some(_) => 2,
    };
    line.splitn(items, |byte| *byte == b' ').last()
}

fn replies_of_seed(seed: u64, lines: usize, bench: &[String]) -> Vec<u8> {
    let output = programs::output(bench, &scripts::script(seed, lines)).unwrap_or_else(|why| fail(&why));
    let replies = output.split(|byte| *byte == b'\n').filter_map(reply_in);
    replies.flat_map(|reply| [reply, b"\n"].concat()).collect()
}

/// The replies to all the scripts, two scripts at a time.
fn replies(first: u64, count: u64, lines: usize, bench: &[String]) -> Vec<u8> {
    let half = |start: u64| (start..first + count).step_by(2).map(|seed| replies_of_seed(seed, lines, bench)).collect::<Vec<_>>().concat();
    std::thread::scope(|scope| {
        let other = scope.spawn(|| half(first + 1));
        let mut all = half(first);
        all.extend(other.join().unwrap_or_else(|_| fail("a half of the scripts failed")));
        all
    })
}

// ---- A page

const MODES: [&str; 4] = ["IR", "SENSOR", "IR_BLASTER", "LED_LIGHTING"];
const OTHER_MODES: [&str; 10] =
    ["FOO", "ir", "IRx", "I", "IR,", "SENSOR_NOTIFY", "LED", "LED_LIGHTINGS", "led_lighting", "IR_BLASTERS"];
/// Bytes that a damaged line is likely to be read wrongly with.
const LIKELY: &[u8] = b"  ,,::0123456789ABIRSTtabcir_-\r\t<>=!";

/// Lines that are near those of a form.
const OF_ANOTHER_FORM: [&str; 29] = [
    "", " ", "<", ">", "=", "= ", "> ", "<state,1:1,1", "<\tLH-01", "=1 1", "= 1", "= 1 1 ", "= 1  1", "= 1 1 1", "= 1:1", " = 1 1", "x 1 1",
    ">  getversion", "> getversion\r", "> getdevices,", "> GETVERSION", "> sendir", "> setstate 2 1", "> set_IR 1 1 ",
    "> set_LED_LIGHTING 1 1", "> set_LED_LIGHTING 1 1 50", "> set_LED_LIGHTING 1 1 50 ", "> set_LED_LIGHTING 1 1 50 1 1",
    "> get_LED_LIGHTING 1 1 1",
];

fn smallest_count(freq: u64) -> u64 {
    freq.div_ceil(12_500).max(4)
}

/// One byte changed, left out, doubled or put behind the line.
fn damaged(random: &mut Random, line: &[u8]) -> Vec<u8> {
    let mut line = line.to_vec();
    let place = random.below(line.len() as u64) as usize;
    match random.below(5) {
        0 => drop(line.remove(place)),
        1 => line.insert(place, line[place]),
        2 => line[place] = random.pick(LIKELY),
        3 => line[place] = random.pick(&[0, 1, 9, 11, 13, 31, 32, 127, 128, 255]),
        _ => line.push(random.pick(LIKELY)),
    }
    line
}

fn address(random: &mut Random, module: u64) -> String {
    let port = random.between(1, 3);
    match random.below(12) {
        0 => format!("{} {port}", random.pick(&[0_u64, 1, 2, 3, 5, 9_999_999_999])),
        1 => format!("{module} {}", random.pick(&[0_u64, 4, 9_999_999_999])),
        2 => format!("{} {}", random.pick(&[0, 1, 2, 3]), random.pick(&[0, 4])),
        3 => format!("{module:010} {port:04}"),
        _ => format!("{module} {port}"),
    }
}

/// A number of a request: mostly good, or one of those about its limits.
fn field(random: &mut Random, good: u64, limits: &[u64]) -> u64 {
    if random.one_in(8) {
        random.pick(limits)
    } else {
        good
    }
}

fn good_count(random: &mut Random, freq: u64) -> u64 {
    let smallest = smallest_count(freq);
    match random.below(40) {
        0 => 50_000,
        1..=10 => smallest,
        _ => smallest + random.below(4),
    }
}

fn bad_count(random: &mut Random, freq: u64) -> u64 {
    random.pick(&[smallest_count(freq) - 1, 50_001, 0, 3, 1_000_000, 9_999_999_999])
}

/// Counts, all good or with a bad one, often at the end.
fn counts(random: &mut Random, freq: u64, many: usize) -> Vec<u64> {
    let mut counts: Vec<u64> = (0..many).map(|_| good_count(random, freq)).collect();
    if many > 0 && random.one_in(5) {
        let place = if random.one_in(2) { many - 1 } else { random.below(many as u64) as usize };
        counts[place] = bad_count(random, freq);
    }
    counts
}

/// How many counts: few, none, one too few or too many, or as many as there may be and about that.
fn how_many(random: &mut Random) -> u64 {
    match random.below(24) {
        0 => 0,
        1 => 2 * random.below(8) + 1,
        2 | 3 => random.pick(&[519, 520, 520, 521, 522, 523, 600]),
        4..=6 => 2 * random.between(16, 40),
        _ => 2 * random.between(1, 8),
    }
}

fn sendir(random: &mut Random) -> String {
    let place = address(random, 1);
    let (any_id, any_freq) = (random.below(65_536), random.between(15_000, 500_000));
    let good_freq = random.pick(&[15_000, 38_000, 40_000, 40_000, 48_000, 60_000, 500_000, any_freq]);
    let (id, freq) = (field(random, any_id, &[0, 65_535, 65_536]), field(random, good_freq, &[0, 14_999, 500_001, 1_000_000]));
    let many = how_many(random);
    let good_repeat = random.between(1, 20);
    let repeat = field(random, good_repeat, &[0, 20, 21, 999_999, 1_000_000]);
    let offset = field(random, 1, &[0, 2, 3, many.saturating_sub(1), many, many + 1, 382, 383, 384, 385]);
    let form = random.pick(&["plain", "lettered"]);
    let counts: String = counts(random, freq.clamp(15_000, 500_000), many as usize).iter().map(|count| format!(" {count}")).collect();
    format!("> sendir {place} {id} {freq} {repeat} {offset} {form}{counts}")
}

fn set_lamp(random: &mut Random) -> String {
    let (any_target, any_ramp) = (random.between(1, 100), random.between(0, 10));
    let place = address(random, 1);
    let target = field(random, any_target, &[0, 1, 100, 101, 1_000_000, 9_999_999_999]);
    let ramp = field(random, any_ramp, &[0, 10, 11, 1_000_000, 9_999_999_999]);
    format!("> set_LED_LIGHTING {place} {target} {ramp}")
}

fn request(random: &mut Random) -> String {
    match random.below(14) {
        0 => format!("> {}", random.pick(&["getdevices", "getversion"])),
        1 | 2 => {
            let mode = if random.one_in(3) { random.pick(&OTHER_MODES) } else { random.pick(&MODES) };
            format!("> set_IR {} {mode}", address(random, 1))
        }
        3 => format!("> {} {}", random.pick(&["get_IR", "stopir", "get_LED_LIGHTING"]), address(random, 1)),
        4 => format!("> setstate {} {}", address(random, 2), random.pick(&["0", "1", "01", "2", "10", "9999999999"])),
        5 => {
            let module = random.between(1, 2);
            format!("> getstate {}", address(random, module))
        }
        6 | 7 => set_lamp(random),
        _ => sendir(random),
    }
}

/// A sendir of so many bytes that has counts to its end.
fn long_sendir(bytes: usize) -> String {
    let start = "> sendir 1 1 7 40000 1 1 plain";
    let body = " 4".repeat((bytes - start.len()) / 2 - 1);
    let width = bytes - start.len() - body.len() - 1;
    format!("{start}{body} {:0width$}", 4)
}

/// Lines about the longest that is judged.
fn long_lines() -> Vec<String> {
    let mut lines = Vec::new();
    for bytes in [4_096, 65_535, 65_536, 65_537, 65_538, 131_072, 200_000] {
        let starts = ["< state,1:1,1", "= 1 1", "> getversion", "> set_IR 1 1 F", "x"];
        lines.extend(starts.map(|start| format!("{start}{}", "0".repeat(bytes - start.len()))));
        lines.push(long_sendir(bytes));
    }
    lines
}

/// Every line of a reply's shape with each place, and the numbers, states, ids and modes about those that a hub writes.
fn shaped_replies() -> Vec<String> {
    let places = ["0:0", "0:1", "1:0", "1:1", "1:2", "1:3", "1:4", "2:0", "2:1", "2:2", "2:3", "2:4", "3:1", "01:1", "1:01", "11:1", "1", ""];
    let mut lines = Vec::new();
    for place in places {
        lines.extend((0..=31).map(|number| format!("ERR_{place},{number:03}")));
        lines.extend(["101", "999", "23", "0023", "", "02x"].map(|number| format!("ERR_{place},{number}")));
        lines.extend(["0", "1", "2", "00", "01", "1,", "-1", "10", ""].map(|state| format!("state,{place},{state}")));
        for id in ["0", "7", "07", "65535", "65536", "065535", "99999", "100000", "1000000", "18446744073709551617", "", "7,"] {
            lines.extend(["completeir", "busyIR"].map(|name| format!("{name},{place},{id}")));
        }
        lines.extend([MODES.as_slice(), &OTHER_MODES].concat().iter().map(|mode| format!("IR,{place},{mode}")));
        lines.extend(shaped_levels(place));
        lines.extend([format!("stopir,{place}"), format!("stopir,{place},"), format!("state,{place}"), format!("IR,{place}")]);
    }
    lines
}

/// Lines of a lamp's reply, with levels and targets within their limits and about them.
fn shaped_levels(place: &str) -> Vec<String> {
    let numbers = ["0", "1", "5", "10", "99", "100", "101", "1000", "00", "01", "050", "0100", "-1", "x", "", "18446744073709551617"];
    let both = numbers.iter().flat_map(|level| numbers.iter().map(move |target| format!("{level},{target}")));
    let others = ["50", "50,", "50,60,", "50,60,1", "50 60", ",50,60"].map(str::to_string);
    both.chain(others).map(|numbers| format!("LED_LIGHTING,{place},{numbers}")).collect()
}

/// The lines of a page, in any order: replies, whole and damaged, requests of every kind and averages between them.
fn page_lines(random: &mut Random, replies: &[u8]) -> Vec<Vec<u8>> {
    let distinct: BTreeSet<&[u8]> = replies.split(|byte| *byte == b'\n').filter(|reply| !reply.is_empty()).collect();
    let mut heard: Vec<Vec<u8>> = distinct.iter().map(|reply| reply.to_vec()).collect();
    for reply in distinct {
        heard.extend([(); 3].map(|()| damaged(random, reply)));
    }
    heard.extend(shaped_replies().into_iter().map(String::into_bytes));
    heard.extend((0..4_000).map(|_| format!("state,{}:{},{}", random.between(1, 2), random.between(1, 3), random.below(2)).into_bytes()));
    let mut lines: Vec<Vec<u8>> = heard.iter().map(|reply| [b"< ", reply.as_slice()].concat()).collect();
    for _ in 0..6_000 {
        let line = request(random).into_bytes();
        lines.push(if random.one_in(8) { damaged(random, &line) } else { line });
        let module = random.between(0, 3);
        let with_state = format!("{} {}", random.between(1, 2), random.between(1, 3));
        let average = format!("= {}", if random.one_in(4) { address(random, module) } else { with_state });
        lines.push(if random.one_in(20) { damaged(random, average.as_bytes()) } else { average.into_bytes() });
    }
    lines.extend(OF_ANOTHER_FORM.map(|line| line.as_bytes().to_vec()));
    lines.extend(long_lines().into_iter().map(String::into_bytes));
    random.shuffle(&mut lines);
    lines
}

/// The whole page; its last line is not ended.
fn page(seed: u64, replies: &[u8]) -> Vec<u8> {
    let lines = page_lines(&mut Random(seed), replies);
    [lines.join(&b'\n'), b"\n= 1 1".to_vec()].concat()
}

// ---- Requests that were asked for

/// The items of a request as the hub is to be asked, all numbers without leading zeros.
struct Asked<'a> {
    name: &'a str,
    module: u64,
    port: u64,
    rest: Vec<String>,
}

impl Asked<'_> {
    fn of(line: &str) -> Option<Asked<'_>> {
        let mut items = line.strip_prefix("> ")?.split(' ');
        let name = items.next()?;
        let mut plain = items.map(|item| item.parse().map_or(item.to_string(), |number: u64| number.to_string()));
        let mut number = || plain.next().map_or(Some(0), |item| item.parse().ok());
        let (module, port) = (number()?, number()?);
        Some(Asked { name, module, port, rest: plain.collect() })
    }

    /// The numbers of a request behind its place, of a sendir its fields, and the counts behind its form.
    fn numbers(&self) -> Vec<u64> {
        self.rest.iter().filter_map(|item| item.parse().ok()).collect()
    }

    /// The request with nothing left out or abridged.
    fn spelled(&self) -> String {
        let form = |item: &&String| self.name != "sendir" || !matches!(item.as_str(), "plain" | "lettered");
        let rest: String = self.rest.iter().filter(form).map(|item| format!(",{item}")).collect();
        // a code without counts is empty
        let empty = if self.name == "sendir" && self.rest.len() == 5 { "," } else { "" };
        format!("{},{}:{}{rest}{empty}", self.name, self.module, self.port)
    }

    /// What the hub's error line is for a number.
    fn error(&self, number: &str) -> String {
        match number {
            "002" | "003" => format!("0 ERR_0:0,{number}\n"),
            _ => format!("0 ERR_{}:{},{number}\n", self.module, self.port),
        }
    }

    /// The hub to be asked: a fresh one, but with lamps for a request that is for lamps.
    fn hub(&self) -> Hub {
        let mut hub = Hub::fresh();
        if self.name.ends_with("LED_LIGHTING") {
            (1..=3).for_each(|port| drop(hub.line(0, format!("set_IR,1:{port},LED_LIGHTING").as_bytes())));
        }
        hub
    }

    /// What that hub replies to the request.
    fn reply(&self) -> String {
        let place = format!("{}:{}", self.module, self.port);
        match (self.name, self.module) {
            ("getdevices", _) => "0 device,0,0 ETHERNET\n0 device,1,3 IR\n0 device,2,3 RELAY\n0 endlistdevices\n".to_string(),
            ("getversion", _) => "0 LH-01\n".to_string(),
            ("set_IR", _) => format!("0 IR,{place},{}\n", self.rest[0]),
            ("get_IR", _) => format!("0 IR,{place},IR\n"),
            ("setstate", _) => format!("0 state,{place},{}\n", self.rest[0]),
            ("getstate", 1) => self.error("018"),
            ("getstate", _) => format!("0 state,{place},0\n"),
            ("stopir", _) => format!("0 stopir,{place}\n"),
            ("get_LED_LIGHTING", _) => format!("0 LED_LIGHTING,{place},0,0\n"),
            ("set_LED_LIGHTING", _) => {
                let level = if self.rest[1] == "0" { &self.rest[0] } else { "0" };
                format!("0 LED_LIGHTING,{place},{level},{}\n", self.rest[0])
            }
            _ => String::new(),
        }
    }

    /// The level of the lamp that is asked for, a second after the request: ramp r is then 10 r percent on, if the target is that far.
    fn level_after_a_second(&self) -> u64 {
        match (self.name, &self.numbers()[..]) {
            ("set_LED_LIGHTING", [target, 0]) => *target,
            ("set_LED_LIGHTING", [target, ramp]) => (10 * ramp).min(*target),
            _ => 0,
        }
    }

    /// What the hub is to send after a sendir.
    fn command(&self) -> Option<Command> {
        let numbers = self.numbers();
        let [id, freq, repeat, offset, ref counts @ ..] = numbers[..] else {
            return None;
        };
        let pairs: Vec<Pair> = counts.chunks(2).map(|pair| (pair[0], pair[1])).collect();
        Some(Command { id, freq, repeat: repeat.min(20), offset, pairs }).filter(|_| self.name == "sendir")
    }

    /// The composed request is read by the hub as it was meant.
    fn read_as_meant(&self, request: &str) -> bool {
        let mut hub = self.hub();
        let reply = printed(&hub.line(0, request.as_bytes()));
        let sent = (1..=3).find_map(|port| hub.connector(port).sending().map(|sending| (port, sending.command.clone())));
        hub.wait(1_000_000);
        let dimmed = [1, 2, 3].map(|port| if port == self.port { self.level_after_a_second() } else { 0 });
        reply == self.reply() && sent == self.command().map(|command| (self.port, command)) && hub.levels() == dimmed
    }

    /// The request spelled out gets the number that it was refused with; none if it cannot be spelled in one line.
    fn refused_alike(&self, number: &str) -> Option<bool> {
        let spelled = self.spelled();
        let one_word = self.name != "set_IR" || self.rest[0].bytes().all(|byte| byte.is_ascii_graphic() && byte != b',');
        (one_word && spelled.len() <= 4_096).then(|| printed(&self.hub().line(0, spelled.as_bytes())) == self.error(number))
    }
}

/// How often each request was composed and each number refused.
fn asked(page: &[u8], output: &[u8]) -> Result<BTreeMap<String, u64>, String> {
    let lines = |text: &[u8]| -> Vec<String> { text.split(|byte| *byte == b'\n').map(|line| String::from_utf8_lossy(line).into_owned()).collect() };
    let mut seen = BTreeMap::new();
    for (line, said) in lines(page).iter().zip(&lines(output)) {
        if !line.starts_with("> ") || said == "!" {
            continue;
        }
        let asked = Asked::of(line).ok_or(format!("{line}: {said}"))?;
        let (what, right) = match said.strip_prefix('!') {
            None => (asked.name, Some(asked.read_as_meant(said))),
            Some(number) => (number, asked.refused_alike(number)),
        };
        match right {
            None => continue,
            Some(false) => return Err(format!("the hub reads it otherwise: {line}: {said}")),
            Some(true) => *seen.entry(what.to_string()).or_default() += 1,
        }
    }
    Ok(seen)
}

const TO_BE_SEEN: [&str; 21] = [
    "getdevices", "getversion", "set_IR", "get_IR", "setstate", "getstate", "sendir", "stopir", "set_LED_LIGHTING", "get_LED_LIGHTING", "002",
    "003", "004", "005", "006", "007", "009", "010", "014", "020", "023",
];

fn check_asked(page: &[u8], output: &[u8]) {
    let seen = asked(page, output).unwrap_or_else(|why| fail(&why));
    let table: Vec<String> = seen.iter().map(|(what, times)| format!("{what} {times}")).collect();
    println!("pages: the hub reads as meant, or refuses alike: {}", table.join(", "));
    if let Some(missing) = TO_BE_SEEN.iter().find(|what| !seen.contains_key(**what)) {
        fail(&format!("{missing}: never seen"));
    }
}

fn read_file(name: &str) -> Vec<u8> {
    std::fs::read(name).unwrap_or_else(|error| fail(&format!("{name}: {error}")))
}

fn main() -> io::Result<()> {
    let words: Vec<String> = std::env::args().skip(1).collect();
    let number = |index: usize| words.get(index).and_then(|word| word.parse().ok()).unwrap_or_else(|| fail("a number is missing"));
    match (words.first().map(String::as_str), words.len()) {
        (Some("replies"), 5..) => io::stdout().write_all(&replies(number(1), number(2), number(3) as usize, &words[4..])),
        (Some("page"), 2) => {
            let mut replies = Vec::new();
            io::stdin().read_to_end(&mut replies)?;
            io::stdout().write_all(&page(number(1), &replies))
        }
        (Some("asked"), 3) => {
            check_asked(&read_file(&words[1]), &read_file(&words[2]));
            Ok(())
        }
        _ => fail("usage: pages replies FIRST COUNT LINES BENCH.. | pages page SEED | pages asked PAGE OUTPUT"),
    }
}
