//! The logbook: a second logger, to be compared with the proved one line by line. It was written from documents 01 and 02 (requests [1] and [3]) alone,
//! by hands that had not seen the proved code. A reply is taken apart field by field and looked up in a table of what a hub can write; a request is
//! composed from numbers. Words in quotation marks are the documents'.
//! The program is a filter: `< LINE` asks what the reply LINE is, `> NAME ..` composes a request, `= M P` asks for the average of a place's state lines.
//! Each line of input gets one line of output, and a line of another form gets `!`.

use std::collections::BTreeMap;
use std::fmt;
use std::io::{self, BufRead, BufWriter, Write};
use std::ops::RangeInclusive;

// ---- Places

/// A module and one of its ports, written `M:P`.
#[derive(Clone, Copy, PartialEq, Eq, PartialOrd, Ord)]
struct Place {
    module: u64,
    port: u64,
}

/// "Module 1 has infrared connectors 1 to 3, module 2 has relays 1 to 3."
const INFRARED: u64 = 1;
const RELAYS: u64 = 2;

impl Place {
    fn is_connector(self) -> bool {
        self.module == INFRARED && (1..=3).contains(&self.port)
    }

    fn is_relay(self) -> bool {
        self.module == RELAYS && (1..=3).contains(&self.port)
    }
}

impl fmt::Display for Place {
    fn fmt(&self, out: &mut fmt::Formatter<'_>) -> fmt::Result {
        write!(out, "{}:{}", self.module, self.port)
    }
}

// ---- Numbers

fn number(text: &[u8], most_digits: usize) -> Option<u64> {
    let readable = (1..=most_digits).contains(&text.len()) && text.iter().all(u8::is_ascii_digit);
    readable.then(|| text.iter().fold(0, |value, digit| value * 10 + u64::from(digit - b'0')))
}

/// A number of 1 to 10 digits, as the lines `>` and `=` have it. Leading zeros count for nothing.
fn asked_number(text: &[u8]) -> Option<u64> {
    number(text, 10)
}

/// A number as a hub writes it in a reply: no idle zeros, and never more than 5 digits.
fn written_number(text: &[u8]) -> Option<u64> {
    let idle_zero = text.starts_with(b"0") && text != b"0";
    number(text, 5).filter(|_| !idle_zero)
}

/// The number of an error, which always has its three digits.
fn written_error_number(text: &[u8]) -> Option<u64> {
    number(text, 3).filter(|_| text.len() == 3)
}

// ---- Replies

/// What a reply line is.
enum Reply {
    State { place: Place, value: u64 },
    Complete { place: Place, id: u64 },
    Busy { place: Place, id: u64 },
    Stop { place: Place },
    Mode { place: Place, mode: &'static str },
    Lamp { place: Place, level: u64, target: u64 },
    Error { place: Place, number: u64 },
    Version,
    Device { module: u64 },
    EndDevices,
}

impl fmt::Display for Reply {
    fn fmt(&self, out: &mut fmt::Formatter<'_>) -> fmt::Result {
        match self {
            Reply::State { place, value } => write!(out, "state {place} {value}"),
            Reply::Complete { place, id } => write!(out, "complete {place} {id}"),
            Reply::Busy { place, id } => write!(out, "busy {place} {id}"),
            Reply::Stop { place } => write!(out, "stop {place}"),
            Reply::Mode { place, mode } => write!(out, "mode {place} {mode}"),
            Reply::Lamp { place, level, target } => write!(out, "lamp {place} {level} {target}"),
            Reply::Error { place, number } => write!(out, "error {place} {number:03}"),
            Reply::Version => write!(out, "version"),
            Reply::Device { module } => write!(out, "device {module}"),
            Reply::EndDevices => write!(out, "enddevices"),
        }
    }
}

/// The reply that a line without its CR is, if some hub reached from a fresh one can write it.
fn read_reply(line: &[u8]) -> Option<Reply> {
    let fields: Vec<&[u8]> = line.split(|byte| *byte == b',').collect();
    match fields[..] {
        [b"LH-01"] => Some(Reply::Version),
        [b"endlistdevices"] => Some(Reply::EndDevices),
        [b"device", module, ports] => read_device(module, ports),
        [b"IR", place, mode] => read_mode(read_place(place)?, mode),
        [b"LED_LIGHTING", place, level, target] => read_lamp(read_place(place)?, written_number(level)?, written_number(target)?),
        [b"state", place, value] => read_state(read_place(place)?, written_number(value)?),
        [b"completeir", place, id] => read_connector_and_id(place, id).map(|(place, id)| Reply::Complete { place, id }),
        [b"busyIR", place, id] => read_connector_and_id(place, id).map(|(place, id)| Reply::Busy { place, id }),
        [b"stopir", place] => read_place(place).filter(|place| place.is_connector()).map(|place| Reply::Stop { place }),
        [head, number] => read_error(read_place(head.strip_prefix(b"ERR_")?)?, written_error_number(number)?),
        _ => None,
    }
}

/// Digits, colon, digits.
fn read_place(text: &[u8]) -> Option<Place> {
    let colon = text.iter().position(|byte| *byte == b':')?;
    Some(Place { module: written_number(&text[..colon])?, port: written_number(&text[colon + 1..])? })
}

/// "`device,0,0 ETHERNET`, `device,1,3 IR`, `device,2,3 RELAY`."
fn read_device(module: &[u8], ports: &[u8]) -> Option<Reply> {
    match (module, ports) {
        (b"0", b"0 ETHERNET") => Some(Reply::Device { module: 0 }),
        (b"1", b"3 IR") => Some(Reply::Device { module: INFRARED }),
        (b"2", b"3 RELAY") => Some(Reply::Device { module: RELAYS }),
        _ => None,
    }
}

/// "Modes IR, SENSOR, IR_BLASTER", and request [3]'s.
const MODES: [&str; 4] = ["IR", "SENSOR", BLASTER, "LED_LIGHTING"];
const BLASTER: &str = "IR_BLASTER";

fn mode_of(word: &[u8]) -> Option<&'static str> {
    MODES.into_iter().find(|mode| mode.as_bytes() == word)
}

/// Connector 3 alone can ever be a blaster: 014 keeps the others from it.
fn read_mode(place: Place, word: &[u8]) -> Option<Reply> {
    let mode = mode_of(word)?;
    let within_reach = place.port == 3 || mode != BLASTER;
    (place.is_connector() && within_reach).then_some(Reply::Mode { place, mode })
}

/// "A target of 1 to 100."
const TARGETS: RangeInclusive<u64> = 1..=100;

/// A lamp may be at any level when it gets a target; one that never got a target is at 0.
fn read_lamp(place: Place, level: u64, target: u64) -> Option<Reply> {
    let told = TARGETS.contains(&target) && level <= 100;
    let never_told = (level, target) == (0, 0);
    (place.is_connector() && (told || never_told)).then_some(Reply::Lamp { place, level, target })
}

/// A contact that was read, or a relay.
fn read_state(place: Place, value: u64) -> Option<Reply> {
    let has_a_state = place.is_connector() || place.is_relay();
    (has_a_state && value <= 1).then_some(Reply::State { place, value })
}

/// The address and id of an accepted transmission, or of a refused one.
fn read_connector_and_id(place: &[u8], id: &[u8]) -> Option<(Place, u64)> {
    let (place, id) = (read_place(place)?, written_number(id)?);
    (place.is_connector() && id <= 65_535).then_some((place, id))
}

/// Each number with the addresses that a hub can write with it. "For 001, 002, 003, 015 and 017 the address is 0:0; otherwise it is the one asked for",
/// and whatever is judged after 002 and 003 is asked of a port that the request can have.
fn read_error(place: Place, number: u64) -> Option<Reply> {
    let can_be_written = match number {
        1 | 2 | 3 | 15 | 17 => place == Place { module: 0, port: 0 },
        // sendir; 013 is stopir's too
        13 | 4 | 5 | 6 | 7 | 9 | 10 | 20 | 21 | 22 => place.is_connector(),
        // set_IR and setstate: "mode or relay state not in its list, or missing"; set_LED_LIGHTING and get_LED_LIGHTING
        23 => place.is_connector() || place.is_relay(),
        // set_IR: "IR_BLASTER on a connector other than 3"
        14 => place.is_connector() && place.port != 3,
        // getstate, which finds no fault with a relay; set_IR's 029
        18 | 28 | 29 => place.is_connector(),
        _ => false,
    };
    can_be_written.then_some(Reply::Error { place, number })
}

// ---- Requests

/// The number of the first field that is "out of 01's limits".
struct Refusal(u64);

impl Refusal {
    fn written(self) -> String {
        format!("!{:03}", self.0)
    }
}

fn demand(kept: bool, number: u64) -> Result<(), Refusal> {
    kept.then_some(()).ok_or(Refusal(number))
}

fn items(text: &[u8]) -> Vec<&[u8]> {
    text.split(|byte| *byte == b' ').collect()
}

fn asked_place(module: &[u8], port: &[u8]) -> Option<Place> {
    Some(Place { module: asked_number(module)?, port: asked_number(port)? })
}

/// The request asked for, without its CR, or its refusal; nothing if the text is of another form.
fn compose(text: &[u8]) -> Option<Result<String, Refusal>> {
    match items(text)[..] {
        [b"getdevices"] => Some(Ok("getdevices".to_string())),
        [b"getversion"] => Some(Ok("getversion".to_string())),
        [b"set_IR", m, p, mode] if !mode.is_empty() => Some(compose_set_ir(asked_place(m, p)?, mode)),
        [b"get_IR", m, p] => Some(compose_with_place("get_IR", asked_place(m, p)?, &[INFRARED])),
        [b"setstate", m, p, state] => Some(compose_setstate(asked_place(m, p)?, asked_number(state)?)),
        [b"getstate", m, p] => Some(compose_with_place("getstate", asked_place(m, p)?, &[INFRARED, RELAYS])),
        [b"set_LED_LIGHTING", m, p, target, ramp] => Some(compose_set_lamp(asked_place(m, p)?, asked_number(target)?, asked_number(ramp)?)),
        [b"get_LED_LIGHTING", m, p] => Some(compose_with_place("get_LED_LIGHTING", asked_place(m, p)?, &[INFRARED])),
        [b"stopir", m, p] => Some(compose_with_place("stopir", asked_place(m, p)?, &[INFRARED])),
        [b"sendir", ref fields @ ..] => asked_command(fields).map(compose_sendir),
        _ => None,
    }
}

/// "002 module not the one in the table for this request; 003 port not 1 to 3."
fn judge_place(place: Place, modules: &[u64]) -> Result<(), Refusal> {
    demand(modules.contains(&place.module), 2)?;
    demand((1..=3).contains(&place.port), 3)
}

fn compose_with_place(name: &str, place: Place, modules: &[u64]) -> Result<String, Refusal> {
    judge_place(place, modules)?;
    Ok(format!("{name},{place}"))
}

fn compose_set_ir(place: Place, word: &[u8]) -> Result<String, Refusal> {
    judge_place(place, &[INFRARED])?;
    let mode = mode_of(word).ok_or(Refusal(23))?;
    demand(mode != BLASTER || place.port == 3, 14)?;
    Ok(format!("set_IR,{place},{mode}"))
}

fn compose_setstate(place: Place, state: u64) -> Result<String, Refusal> {
    judge_place(place, &[RELAYS])?;
    demand(state <= 1, 23)?;
    Ok(format!("setstate,{place},{state}"))
}

/// "A target of 1 to 100 and a ramp of 0 to 10."
fn compose_set_lamp(place: Place, target: u64, ramp: u64) -> Result<String, Refusal> {
    judge_place(place, &[INFRARED])?;
    demand(TARGETS.contains(&target) && ramp <= 10, 23)?;
    Ok(format!("set_LED_LIGHTING,{place},{target},{ramp}"))
}

/// A sendir asked for, within the limits or not. Its counts are on and off by turns.
struct Command {
    place: Place,
    id: u64,
    freq: u64,
    repeat: u64,
    offset: u64,
    lettered: bool,
    counts: Vec<u64>,
}

fn asked_command(fields: &[&[u8]]) -> Option<Command> {
    let [m, p, id, freq, repeat, offset, form @ (b"plain" | b"lettered"), counts @ ..] = fields else {
        return None;
    };
    Some(Command {
        place: asked_place(m, p)?,
        id: asked_number(id)?,
        freq: asked_number(freq)?,
        repeat: asked_number(repeat)?,
        offset: asked_number(offset)?,
        lettered: *form == b"lettered",
        counts: counts.iter().map(|count| asked_number(count)).collect::<Option<_>>()?,
    })
}

fn compose_sendir(command: Command) -> Result<String, Refusal> {
    judge_place(command.place, &[INFRARED])?;
    judge_numbers(&command)?;
    judge_counts(&command.counts, command.freq)?;
    demand(command.offset < command.counts.len() as u64, 7)?;
    let pairs: Vec<Pair> = command.counts.chunks_exact(2).map(|pair| (pair[0], pair[1])).collect();
    let code = if command.lettered { lettered_code(&pairs) } else { plain_code(&pairs) };
    let repeat = command.repeat.min(20);
    let Command { place, id, freq, offset, .. } = command;
    Ok(format!("sendir,{place},{id},{freq},{repeat},{offset},{code}"))
}

/// "id 0 to 65535; freq 15000 to 500000 Hz; repeat 1 to 999999; offset odd, 1 to 383."
fn judge_numbers(command: &Command) -> Result<(), Refusal> {
    demand(command.id <= 65_535, 4)?;
    demand((15_000..=500_000).contains(&command.freq), 5)?;
    demand((1..=999_999).contains(&command.repeat), 6)?;
    demand((1..=383).contains(&command.offset) && command.offset % 2 == 1, 7)
}

/// "1 to 260 pairs."
const MOST_COUNTS: usize = 520;

/// "Faults, the first from the left", of a code spelled plain. The count that begins the 261st pair is refused before it is judged.
fn judge_counts(counts: &[u64], freq: u64) -> Result<(), Refusal> {
    demand(!counts.is_empty(), 9)?;
    for (already, count) in counts.iter().enumerate() {
        demand(already < MOST_COUNTS, 20)?;
        demand(is_legal_count(*count, freq), 9)?;
    }
    demand(counts.len() % 2 == 0, 10)
}

/// "Each count is 4 to 50000 and lasts at least 80 us: 12,500 x count is at least freq."
fn is_legal_count(count: u64, freq: u64) -> bool {
    (4..=50_000).contains(&count) && 12_500 * count >= freq
}

/// On and off counts of carrier periods.
type Pair = (u64, u64);

fn spelled((on, off): &Pair) -> String {
    format!("{on},{off}")
}

fn plain_code(pairs: &[Pair]) -> String {
    pairs.iter().map(spelled).collect::<Vec<_>>().join(",")
}

/// "The first 15 distinct pairs get A to O."
fn letter_of(rank: usize) -> Option<char> {
    "ABCDEFGHIJKLMNO".chars().nth(rank)
}

/// "Every later occurrence of a lettered pair is its letter", "with no comma on either side"; "two spelled pairs have one comma between them".
fn lettered_code(pairs: &[Pair]) -> String {
    let mut code = String::new();
    let mut distinct: Vec<Pair> = Vec::new();
    for pair in pairs {
        let rank = distinct.iter().position(|earlier| earlier == pair);
        if let Some(letter) = rank.and_then(letter_of) {
            code.push(letter);
            continue;
        }
        if code.ends_with(|last: char| last.is_ascii_digit()) {
            code.push(',');
        }
        code.push_str(&spelled(pair));
        if rank.is_none() {
            distinct.push(*pair);
        }
    }
    code
}

// ---- The book

/// How many of a place's state lines said 1, and how many there were.
#[derive(Default)]
struct Tally {
    ones: u64,
    readings: u64,
}

impl Tally {
    fn count(&mut self, value: u64) {
        self.ones += value;
        self.readings += 1;
    }
}

/// The state lines heard so far, by place.
#[derive(Default)]
struct Logbook(BTreeMap<Place, Tally>);

/// A longer line is of another form; after `< ` it is not a reply, for no reply is that long.
const LONGEST_LINE: usize = 65_536;

impl Logbook {
    /// The line of output for a line of input; nothing if that is of another form.
    fn answer(&mut self, line: &[u8]) -> Option<String> {
        match line {
            [b'<', b' ', reply @ ..] => Some(self.hear(reply)),
            _ if line.len() > LONGEST_LINE => None,
            [b'>', b' ', request @ ..] => compose(request).map(|composed| composed.unwrap_or_else(Refusal::written)),
            [b'=', b' ', place @ ..] => self.average(place),
            _ => None,
        }
    }

    /// "Only a state line may ever give a contact's or relay's 0 or 1."
    fn hear(&mut self, line: &[u8]) -> String {
        let reply = read_reply(line);
        if let Some(Reply::State { place, value }) = reply {
            self.0.entry(place).or_default().count(value);
        }
        reply.map_or("not a reply".to_string(), |reply| reply.to_string())
    }

    fn average(&self, text: &[u8]) -> Option<String> {
        let [module, port] = items(text)[..] else {
            return None;
        };
        let tally = self.0.get(&asked_place(module, port)?);
        Some(tally.map_or("no reading".to_string(), |Tally { ones, readings }| format!("{ones} of {readings}")))
    }
}

fn main() -> io::Result<()> {
    let mut input = io::stdin().lock();
    let mut output = BufWriter::new(io::stdout().lock());
    let mut logbook = Logbook::default();
    let mut line = Vec::new();
    while input.read_until(b'\n', &mut line)? > 0 {
        let answer = line.strip_suffix(b"\n").and_then(|whole| logbook.answer(whole));
        writeln!(output, "{}", answer.as_deref().unwrap_or("!"))?;
        line.clear();
    }
    output.flush()
}
