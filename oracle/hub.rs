//! The oracle: a second hub, to be compared with the bench byte for byte. It was written from document 01 and its settled readings, and changed
//! by requests 2 and 3 of document 02, by hands that had not seen the proved code, and in another style: moments are absolute, fractions exact,
//! waveforms written out copy by copy, and nothing that happened is forgotten; the present state is read off the history. Words in quotation
//! marks are document 01's where nothing else is said.
//! The program reads the bench's script on standard input and prints the bench's output.

use std::io::{self, Read, Write};

// ---- Units: "Carrier periods and microseconds are separate units and are never added."

/// Whole microseconds since the hub was fresh.
#[derive(Clone, Copy, PartialEq, Eq, PartialOrd, Ord)]
pub struct Moment(pub u128);

/// Carrier periods since the start of a transmission.
#[derive(Clone, Copy, PartialEq, Eq)]
pub struct Periods(pub u128);

/// Carrier periods done, an exact fraction: `top / bottom`. It is compared by cross-multiplication and never divided.
pub struct Done {
    pub top: u128,
    pub bottom: u128,
}

impl Done {
    pub fn reaches(&self, place: Periods) -> bool {
        self.top >= place.0 * self.bottom
    }
}

/// A lamp's exact level in hundred-thousandths of a percent: "ramp r moves r percent in each 100,000 us" (document 02, request 3), so it moves r
/// of these in each microsecond, and a level at a whole microsecond is a whole number of them.
#[derive(Clone, Copy, PartialEq, Eq, PartialOrd, Ord)]
pub struct Level(pub u128);

impl Level {
    pub fn of_percent(percent: u64) -> Level {
        Level(u128::from(percent) * 100_000)
    }

    /// Document 02, request 3: "the level shown is the exact one rounded down."
    pub fn shown(self) -> u64 {
        (self.0 / 100_000) as u64
    }
}

// ---- Numbers

fn is_number(text: &[u8]) -> bool {
    !text.is_empty() && text.iter().all(u8::is_ascii_digit)
}

fn decimal(digits: &[u8]) -> u64 {
    digits.iter().fold(0, |value, digit| value * 10 + u64::from(digit - b'0'))
}

/// "A number is a run of decimal digits; leading zeros count for nothing. A run of over 6 digits, zeros included, is out of range."
fn number_within(text: &[u8], least: u64, most: u64) -> Option<u64> {
    let readable = is_number(text) && text.len() <= 6;
    readable.then(|| decimal(text)).filter(|value| (least..=most).contains(value))
}

// ---- An infrared code

pub const MOST_PAIRS: usize = 260;

/// On and off counts of carrier periods.
pub type Pair = (u64, u64);

/// What was read of a code so far.
#[derive(Default)]
struct Code {
    pairs: Vec<Pair>,
    lettered: Vec<Pair>,
}

impl Code {
    /// "Going through the expanded pairs in order, the first 15 distinct pairs get A to O as each first occurs."
    fn push(&mut self, pair: Pair) {
        if !self.lettered.contains(&pair) && self.lettered.len() < 15 {
            self.lettered.push(pair);
        }
        self.pairs.push(pair);
    }

    fn pair_of(&self, letter: u8) -> Option<Pair> {
        self.lettered.get(usize::from(letter - b'A')).copied()
    }
}

enum Token<'a> {
    Number(&'a [u8]),
    Letter(u8),
    Comma,
    Other,
    End,
}

/// The first token of a text, and what follows it. A number is as long as it can be, since it is "judged at its end".
fn first_token(text: &[u8]) -> (Token<'_>, &[u8]) {
    let digits = text.iter().take_while(|byte| byte.is_ascii_digit()).count();
    match text.first() {
        None => (Token::End, text),
        Some(b'0'..=b'9') => (Token::Number(&text[..digits]), &text[digits..]),
        Some(letter @ b'A'..=b'Z') => (Token::Letter(*letter), &text[1..]),
        Some(b',') => (Token::Comma, &text[1..]),
        Some(_) => (Token::Other, &text[1..]),
    }
}

/// Where the reader of a code stands, by what it has just read.
enum Place {
    CodeStart,
    OnCount(u64),
    OnCountAndComma(u64),
    SpelledPair,
    SpelledPairAndComma,
    Letter,
}

/// "Each count is 4 to 50000 and lasts at least 80 us: 12,500 x count is at least freq"; a count out of limits is 009.
fn read_count(digits: &[u8], freq: u64) -> Result<u64, u32> {
    number_within(digits, 4, 50_000).filter(|count| 12_500 * count >= freq).ok_or(9)
}

/// "Faults, the first from the left": the pairs of a code, or the number of its first fault.
pub fn read_code(text: &[u8], freq: u64) -> Result<Vec<Pair>, u32> {
    let mut code = Code::default();
    let mut place = Place::CodeStart;
    let mut rest = text;
    loop {
        let (token, after) = first_token(rest);
        rest = after;
        let full = code.pairs.len() == MOST_PAIRS;
        place = match (place, token) {
            // "020 the 261st pair is begun by a digit, or by a letter without a comma before it, ahead of any judging of that letter"
            (Place::SpelledPairAndComma | Place::Letter, Token::Number(_)) if full => return Err(20),
            (Place::SpelledPair | Place::Letter, Token::Letter(_)) if full => return Err(20),
            (Place::CodeStart | Place::SpelledPairAndComma | Place::Letter, Token::Number(digits)) => {
                Place::OnCount(read_count(digits, freq)?)
            }
            // "022 a letter without a pair where a pair may begin"
            (Place::CodeStart | Place::SpelledPair | Place::Letter, Token::Letter(letter)) => {
                code.push(code.pair_of(letter).ok_or(22_u32)?);
                Place::Letter
            }
            // "021 a letter where an off count is due or where an on count has just ended"
            (Place::OnCount(_) | Place::OnCountAndComma(_), Token::Letter(_)) => return Err(21),
            // "010 the line ends just after an on count"
            (Place::OnCount(_), Token::End) => return Err(10),
            (Place::OnCount(on), Token::Comma) => Place::OnCountAndComma(on),
            (Place::OnCountAndComma(on), Token::Number(digits)) => {
                code.push((on, read_count(digits, freq)?));
                Place::SpelledPair
            }
            // "Two spelled pairs have one comma between them."
            (Place::SpelledPair, Token::Comma) => Place::SpelledPairAndComma,
            (Place::SpelledPair | Place::Letter, Token::End) => return Ok(code.pairs),
            // "009 all else"
            _ => return Err(9),
        }
    }
}

// ---- Commands and transmissions

/// A sendir line's meaning, "plain or lettered alike".
#[derive(Clone, PartialEq)]
pub struct Command {
    pub id: u64,
    pub freq: u64,
    pub repeat: u64,
    pub offset: u64,
    pub pairs: Vec<Pair>,
}

/// The fields behind the address, judged in the order "004, 005, 006, 007, code faults, 007 for an offset beyond the code".
fn read_command(id: &[u8], freq: &[u8], repeat: &[u8], offset: &[u8], code: &[u8]) -> Result<Command, u32> {
    let id = number_within(id, 0, 65_535).ok_or(4_u32)?;
    let freq = number_within(freq, 15_000, 500_000).ok_or(5_u32)?;
    // "repeat 1 to 999999, and above 20 is taken as 20"
    let repeat = number_within(repeat, 1, 999_999).ok_or(6_u32)?.min(20);
    let offset = number_within(offset, 1, 383).filter(|offset| offset % 2 == 1).ok_or(7_u32)?;
    let pairs = read_code(code, freq)?;
    // "The offset is at most twice the number of pairs, less one; it is checked also when repeat is 1."
    if offset > 2 * pairs.len() as u64 - 1 {
        return Err(7);
    }
    Ok(Command { id, freq, repeat, offset, pairs })
}

/// One copy of a waveform: on and off counts in turn.
pub struct OneCopy {
    pub begins: Periods,
    pub counts: Vec<u64>,
}

impl OneCopy {
    fn ends(&self) -> Periods {
        Periods(self.begins.0 + self.counts.iter().map(|count| u128::from(*count)).sum::<u128>())
    }
}

pub enum Ending {
    Completed,
    Halted,
    Dropped,
}

/// A transmission from its start to its end, with all that happened to it.
pub struct Sending {
    pub command: Command,
    pub starter: u64,
    /// The line that started it and those that renewed it, each with its moment.
    pub told: Vec<(Moment, Vec<u8>)>,
    pub copies: Vec<OneCopy>,
    /// When the starter's connection was closed.
    pub orphaned: Option<Moment>,
    pub ended: Option<(Moment, Ending)>,
}

impl Sending {
    pub fn start(starter: u64, now: Moment, line: &[u8], command: Command) -> Sending {
        let told = vec![(now, line.to_vec())];
        let total = command.repeat as usize;
        let mut sending = Sending { command, starter, told, copies: Vec::new(), orphaned: None, ended: None };
        sending.write_out(total);
        sending
    }

    /// Writes further copies until there are `total`. "The first copy is all pairs; each further copy runs from the on count at the offset."
    fn write_out(&mut self, total: usize) {
        let all: Vec<u64> = self.command.pairs.iter().flat_map(|&(on, off)| [on, off]).collect();
        while self.copies.len() < total {
            let skipped = if self.copies.is_empty() { 0 } else { self.command.offset as usize - 1 };
            let begins = self.copies.last().map_or(Periods(0), OneCopy::ends);
            self.copies.push(OneCopy { begins, counts: all[skipped..].to_vec() });
        }
    }

    /// "After t microseconds a transmission has done t x freq / 1,000,000 periods, an exact fraction."
    pub fn done_at(&self, moment: Moment) -> Done {
        let t = moment.0 - self.told[0].0 .0;
        Done { top: t * u128::from(self.command.freq), bottom: 1_000_000 }
    }

    /// The first whole microsecond when the fraction reaches a place, found by halving: at one hertz or more it is reached by `late`.
    pub fn first_moment_at(&self, place: Periods) -> Moment {
        let (mut early, mut late) = (self.told[0].0 .0, self.told[0].0 .0 + place.0 * 1_000_000);
        while early < late {
            let middle = (early + late) / 2;
            if self.done_at(Moment(middle)).reaches(place) {
                late = middle;
            } else {
                early = middle + 1;
            }
        }
        Moment(early)
    }

    pub fn total(&self) -> Periods {
        self.copies.last().map_or(Periods(0), OneCopy::ends)
    }

    /// "The transmission is complete at the first whole microsecond when the fraction reaches the total."
    pub fn completes(&self) -> Moment {
        self.first_moment_at(self.total())
    }

    /// "Its transmissions run on with no owner. [...] A later connection of that number owns nothing of them."
    pub fn owner(&self) -> Option<u64> {
        if self.orphaned.is_some() {
            None
        } else {
            Some(self.starter)
        }
    }

    /// How many copies have reached their end. Document 02, request 2: "at an exact boundary the copy just ended is finished."
    pub fn copies_finished(&self, moment: Moment) -> usize {
        let done = self.done_at(moment);
        self.copies.iter().filter(|copy| done.reaches(copy.ends())).count()
    }

    /// Document 02, request 2: "From now on the total becomes copies finished plus repeat". The copy in hand is one of those `repeat`.
    fn renew(&mut self, now: Moment, line: &[u8]) {
        self.write_out(self.copies_finished(now) + self.command.repeat as usize);
        self.told.push((now, line.to_vec()));
    }
}

// ---- Lamps

/// A lamp since it was last told something: the level it had then, and where it goes from there. The target is in percent, the ramp in percent for
/// each 100,000 us.
#[derive(Clone, Copy)]
pub struct Lamp {
    pub told: Moment,
    pub from: Level,
    pub target: u64,
    pub ramp: u64,
}

impl Lamp {
    /// Document 02, request 3: "A connector entering this mode is at 0 with target 0."
    fn dark(told: Moment) -> Lamp {
        Lamp { told, from: Level(0), target: 0, ramp: 0 }
    }

    pub fn goal(&self) -> Level {
        Level::of_percent(self.target)
    }

    /// Document 02, request 3: "Ramp 0 is instant. Ramp r moves [...] exactly and without steps, and stops at the target".
    pub fn level_at(&self, moment: Moment) -> Level {
        let (goal, moved) = (self.goal(), (moment.0 - self.told.0) * u128::from(self.ramp));
        if self.ramp == 0 || moved >= self.from.0.abs_diff(goal.0) {
            goal
        } else if self.from < goal {
            Level(self.from.0 + moved)
        } else {
            Level(self.from.0 - moved)
        }
    }
}

// ---- Connectors

#[derive(Clone, Copy, PartialEq)]
pub enum Mode {
    Ir,
    Sensor,
    IrBlaster,
    LedLighting,
}

impl Mode {
    const ALL: [Mode; 4] = [Mode::Ir, Mode::Sensor, Mode::IrBlaster, Mode::LedLighting];

    fn word(self) -> &'static str {
        match self {
            Mode::Ir => "IR",
            Mode::Sensor => "SENSOR",
            Mode::IrBlaster => "IR_BLASTER",
            Mode::LedLighting => "LED_LIGHTING",
        }
    }

    /// 013: "sendir or stopir to a connector in SENSOR"; document 02, request 3, of a lamp: "sendir and stopir there get 013."
    pub fn can_transmit(self) -> bool {
        matches!(self, Mode::Ir | Mode::IrBlaster)
    }

    fn of_word(word: &[u8]) -> Option<Mode> {
        Mode::ALL.into_iter().find(|mode| mode.word().as_bytes() == word)
    }
}

pub enum Note {
    ModeChanged(Mode),
    ContactRead(u64),
    LampSet(Lamp),
}

/// A connector is its diary and everything it ever sent.
#[derive(Default)]
pub struct Connector {
    pub diary: Vec<(Moment, Note)>,
    pub sendings: Vec<Sending>,
}

impl Connector {
    /// "A fresh hub has every connector in mode IR."
    pub fn mode(&self) -> Mode {
        let last = self.diary.iter().rev().find_map(|(_, note)| match note {
            Note::ModeChanged(mode) => Some(*mode),
            Note::ContactRead(_) | Note::LampSet(_) => None,
        });
        last.unwrap_or(Mode::Ir)
    }

    /// The last reading. "A change of mode makes the contact unread", so no reading counts that is older than one.
    pub fn contact(&self) -> Option<u64> {
        match self.diary.last() {
            Some((_, Note::ContactRead(value))) => Some(*value),
            Some((_, Note::ModeChanged(_) | Note::LampSet(_))) | None => None,
        }
    }

    /// The lamp, where there is one: of the notes since the last change of mode, all are settings if that was into this mode.
    pub fn lamp(&self) -> Option<Lamp> {
        match self.diary.last() {
            Some((_, Note::LampSet(lamp))) => Some(*lamp),
            Some((entered, Note::ModeChanged(Mode::LedLighting))) => Some(Lamp::dark(*entered)),
            _ => None,
        }
    }

    /// The transmission that is under way.
    pub fn sending(&self) -> Option<&Sending> {
        self.sendings.last().filter(|sending| sending.ended.is_none())
    }

    fn sending_mut(&mut self) -> Option<&mut Sending> {
        self.sendings.last_mut().filter(|sending| sending.ended.is_none())
    }

    fn end(&mut self, moment: Moment, ending: Ending) {
        if let Some(sending) = self.sending_mut() {
            sending.ended = Some((moment, ending));
        }
    }
}

// ---- Requests

/// The requests that name an address.
#[derive(Clone, Copy)]
enum Request {
    SetMode,
    GetMode,
    SetState,
    GetState,
    SetLamp,
    GetLamp,
    Send,
    Stop,
}

impl Request {
    /// "Names are case sensitive."
    fn of_name(name: &[u8]) -> Option<Request> {
        match name {
            b"set_IR" => Some(Request::SetMode),
            b"get_IR" => Some(Request::GetMode),
            b"setstate" => Some(Request::SetState),
            b"getstate" => Some(Request::GetState),
            b"set_LED_LIGHTING" => Some(Request::SetLamp),
            b"get_LED_LIGHTING" => Some(Request::GetLamp),
            b"sendir" => Some(Request::Send),
            b"stopir" => Some(Request::Stop),
            _ => None,
        }
    }

    /// "Module 1 has infrared connectors 1 to 3, module 2 has relays 1 to 3"; "getstate takes 1 or 2".
    fn modules(self) -> &'static [u64] {
        match self {
            Request::SetMode | Request::GetMode | Request::SetLamp | Request::GetLamp | Request::Send | Request::Stop => &[1],
            Request::SetState => &[2],
            Request::GetState => &[1, 2],
        }
    }
}

/// The replies of the requests without an address, which "know only 017".
fn fixed_reply(name: &[u8]) -> Option<&'static [&'static str]> {
    match name {
        b"getdevices" => Some(&["device,0,0 ETHERNET", "device,1,3 IR", "device,2,3 RELAY", "endlistdevices"]),
        b"getversion" => Some(&["LH-01"]),
        _ => None,
    }
}

/// "Address missing or not digits, colon, digits" 017; module 002; port 003.
fn read_address(field: &[u8], modules: &[u64]) -> Result<(u64, u64), u32> {
    let colon = field.iter().position(|byte| *byte == b':').ok_or(17_u32)?;
    let (module, port) = (&field[..colon], &field[colon + 1..]);
    if !is_number(module) || !is_number(port) {
        return Err(17);
    }
    let module = number_within(module, 0, 999_999).filter(|module| modules.contains(module)).ok_or(2_u32)?;
    let port = number_within(port, 1, 3).ok_or(3_u32)?;
    Ok((module, port))
}

/// A request's fields are what stands between its commas; missing and empty are one.
struct Fields<'a>(Vec<&'a [u8]>);

impl<'a> Fields<'a> {
    /// A code has commas of its own, so the seventh field is all that is left.
    fn of(line: &'a [u8], request_has_code: bool) -> Fields<'a> {
        let most = if request_has_code { 7 } else { usize::MAX };
        Fields(line.splitn(most, |byte| *byte == b',').collect())
    }

    fn get(&self, index: usize) -> &'a [u8] {
        self.0.get(index).copied().unwrap_or(b"")
    }

    /// 017: "anything after a complete request", a lone comma too.
    fn no_more_than(&self, number: usize) -> Result<(), u32> {
        if self.0.len() > number {
            Err(17)
        } else {
            Ok(())
        }
    }
}

/// An error's number, and the address that was asked for.
struct Fault {
    number: u32,
    asked: (u64, u64),
}

impl Fault {
    /// "An error line is `ERR_m:p,nnn`. [...] For 001, 002, 003, 015 and 017 the address is 0:0; otherwise it is the one asked for."
    fn text(&self) -> String {
        let (module, port) = if [1, 2, 3, 15, 17].contains(&self.number) { (0, 0) } else { self.asked };
        format!("ERR_{module}:{port},{:03}", self.number)
    }
}

// ---- The hub

/// What the bench prints, a line each.
pub enum Said {
    Reply { to: u64, text: String },
    Completion { after: u128, to: Option<u64>, text: String },
    Refusal(u32),
    AnotherForm,
}

impl Said {
    fn printed(&self) -> String {
        match self {
            Said::Reply { to, text } => format!("{to} {text}\n"),
            Said::Completion { after, to: Some(to), text } => format!("@{after} {to} {text}\n"),
            Said::Completion { after, to: None, text } => format!("@{after} - {text}\n"),
            Said::Refusal(number) => format!("!{number}\n"),
            Said::AnotherForm => "!\n".to_string(),
        }
    }
}

fn reply(to: u64, text: impl Into<String>) -> Vec<Said> {
    vec![Said::Reply { to, text: text.into() }]
}

pub struct Hub {
    pub now: Moment,
    pub connectors: [Connector; 3],
    /// The states that each relay was set to, with their moments.
    pub relays: [Vec<(Moment, u64)>; 3],
    /// Module and port of each line that was carried out: a set_IR, setstate, set_LED_LIGHTING or stopir that got its reply, a sendir that was
    /// taken.
    pub carried_out: Vec<(u64, u64)>,
}

impl Hub {
    pub fn fresh() -> Hub {
        Hub { now: Moment(0), connectors: Default::default(), relays: Default::default(), carried_out: Vec::new() }
    }

    pub fn connector(&self, port: u64) -> &Connector {
        &self.connectors[port as usize - 1]
    }

    fn connector_mut(&mut self, port: u64) -> &mut Connector {
        &mut self.connectors[port as usize - 1]
    }

    /// "Every relay open (0)" in a fresh hub.
    pub fn relay(&self, port: u64) -> u64 {
        self.relays[port as usize - 1].last().map_or(0, |(_, state)| *state)
    }

    /// The public question for levels: each connector's in percent, 0 where there is no lamp.
    pub fn levels(&self) -> [u64; 3] {
        [1, 2, 3].map(|port| self.connector(port).lamp().map_or(0, |lamp| lamp.level_at(self.now).shown()))
    }

    /// A request line. Order: "102, 101, 015, 001, 017 for the address, 002, 003, then by request"; the bench lends room enough for no 101.
    pub fn line(&mut self, from: u64, line: &[u8]) -> Vec<Said> {
        if from > 7 {
            return vec![Said::Refusal(102)];
        }
        self.answer(from, line).unwrap_or_else(|fault| reply(from, fault.text()))
    }

    fn answer(&mut self, from: u64, line: &[u8]) -> Result<Vec<Said>, Fault> {
        let unaddressed = |number| Fault { number, asked: (0, 0) };
        if line.len() > 4096 {
            return Err(unaddressed(15));
        }
        if line.iter().any(|byte| !(32..=126).contains(byte)) {
            return Err(unaddressed(1));
        }
        let name = line.split(|byte| *byte == b',').next().unwrap_or(b"");
        if let Some(reply_lines) = fixed_reply(name) {
            Fields::of(line, false).no_more_than(1).map_err(unaddressed)?;
            return Ok(reply_lines.iter().flat_map(|text| reply(from, *text)).collect());
        }
        let request = Request::of_name(name).ok_or(unaddressed(1))?;
        let fields = Fields::of(line, matches!(request, Request::Send));
        let asked = read_address(fields.get(1), request.modules()).map_err(unaddressed)?;
        self.obey(request, from, asked, &fields, line).map_err(|number| Fault { number, asked })
    }

    fn obey(&mut self, request: Request, from: u64, asked: (u64, u64), fields: &Fields, line: &[u8]) -> Result<Vec<Said>, u32> {
        let (module, port) = asked;
        match request {
            Request::SetMode => Ok(reply(from, self.set_mode(port, fields)?)),
            Request::GetMode => {
                fields.no_more_than(2)?;
                Ok(reply(from, self.mode_text(port)))
            }
            Request::SetState => Ok(reply(from, self.set_relay(port, fields)?)),
            Request::GetState => {
                fields.no_more_than(2)?;
                let state = if module == 2 { self.relay(port) } else { self.contact(port)? };
                Ok(reply(from, format!("state,{module}:{port},{state}")))
            }
            Request::SetLamp => Ok(reply(from, self.set_lamp(port, fields)?)),
            Request::GetLamp => {
                let lamp = self.connector(port).lamp().ok_or(23_u32)?;
                fields.no_more_than(2)?;
                Ok(reply(from, self.lamp_text(port, &lamp)))
            }
            Request::Send => self.send(from, port, fields, line),
            Request::Stop => self.stop(from, port, fields),
        }
    }

    fn mode_text(&self, port: u64) -> String {
        format!("IR,1:{port},{}", self.connector(port).mode().word())
    }

    /// set_IR: "023, 014, 017, 029".
    fn set_mode(&mut self, port: u64, fields: &Fields) -> Result<String, u32> {
        let mode = Mode::of_word(fields.get(2)).ok_or(23_u32)?;
        // "IR_BLASTER on a connector other than 3"
        if mode == Mode::IrBlaster && port != 3 {
            return Err(14);
        }
        fields.no_more_than(3)?;
        if self.connector(port).sending().is_some() {
            return Err(29);
        }
        // "The present mode again changes nothing."
        if self.connector(port).mode() != mode {
            let now = self.now;
            self.connector_mut(port).diary.push((now, Note::ModeChanged(mode)));
        }
        self.carried_out.push((1, port));
        Ok(self.mode_text(port))
    }

    /// setstate: "023, 017".
    fn set_relay(&mut self, port: u64, fields: &Fields) -> Result<String, u32> {
        let state = number_within(fields.get(2), 0, 1).ok_or(23_u32)?;
        fields.no_more_than(3)?;
        self.relays[port as usize - 1].push((self.now, state));
        self.carried_out.push((2, port));
        Ok(format!("state,2:{port},{}", self.relay(port)))
    }

    fn lamp_text(&self, port: u64, lamp: &Lamp) -> String {
        format!("LED_LIGHTING,1:{port},{},{}", lamp.level_at(self.now).shown(), lamp.target)
    }

    /// set_LED_LIGHTING, document 02, request 3: "023 for a bad target, bad ramp or a connector not in this mode, then 017 for a surplus."
    fn set_lamp(&mut self, port: u64, fields: &Fields) -> Result<String, u32> {
        let target = number_within(fields.get(2), 1, 100).ok_or(23_u32)?;
        let ramp = number_within(fields.get(3), 0, 10).ok_or(23_u32)?;
        let before = self.connector(port).lamp().ok_or(23_u32)?;
        fields.no_more_than(4)?;
        let now = self.now;
        // "A new target starts from the exact level."
        let lamp = Lamp { told: now, from: before.level_at(now), target, ramp };
        self.connector_mut(port).diary.push((now, Note::LampSet(lamp)));
        self.carried_out.push((1, port));
        Ok(self.lamp_text(port, &lamp))
    }

    /// getstate of a connector, after 017: "018, 028".
    fn contact(&self, port: u64) -> Result<u64, u32> {
        let connector = self.connector(port);
        if connector.mode() != Mode::Sensor {
            return Err(18);
        }
        connector.contact().ok_or(28)
    }

    /// sendir: "013, 004, 005, 006, 007, code faults, 007 for an offset beyond the code, busyIR".
    fn send(&mut self, from: u64, port: u64, fields: &Fields, line: &[u8]) -> Result<Vec<Said>, u32> {
        if !self.connector(port).mode().can_transmit() {
            return Err(13);
        }
        let command = read_command(fields.get(2), fields.get(3), fields.get(4), fields.get(5), fields.get(6))?;
        let now = self.now;
        let connector = self.connector_mut(port);
        if let Some(sending) = connector.sending_mut() {
            // "From another connection, or if there is no owner: busyIR with the refused line's id, hub unchanged."
            if sending.owner() != Some(from) {
                return Ok(reply(from, format!("busyIR,1:{port},{}", command.id)));
            }
            // "From the owner, with equal id, freq, capped repeat, offset and pairs [...]: the transmission is renewed."
            if sending.command == command {
                sending.renew(now, line);
                self.carried_out.push((1, port));
                return Ok(Vec::new());
            }
        }
        // "From the owner with any other field: the old one is dropped without a notice and the new one starts."
        connector.end(now, Ending::Dropped);
        connector.sendings.push(Sending::start(from, now, line, command));
        self.carried_out.push((1, port));
        Ok(Vec::new())
    }

    /// stopir: "017, 013"; its reply, and "the same to the owner of a halted transmission, if another connection".
    fn stop(&mut self, from: u64, port: u64, fields: &Fields) -> Result<Vec<Said>, u32> {
        fields.no_more_than(2)?;
        if !self.connector(port).mode().can_transmit() {
            return Err(13);
        }
        let mut said = reply(from, format!("stopir,1:{port}"));
        let owner = self.connector(port).sending().and_then(Sending::owner);
        if let Some(owner) = owner.filter(|owner| *owner != from) {
            said.extend(reply(owner, format!("stopir,1:{port}")));
        }
        let now = self.now;
        self.connector_mut(port).end(now, Ending::Halted);
        self.carried_out.push((1, port));
        Ok(said)
    }

    /// "104 contact reading for a port not 1 to 3, or not in SENSOR, or not 0 or 1."
    pub fn read_contact(&mut self, port: u64, value: u64) -> Vec<Said> {
        if !(1..=3).contains(&port) || value > 1 || self.connector(port).mode() != Mode::Sensor {
            return vec![Said::Refusal(104)];
        }
        let now = self.now;
        self.connector_mut(port).diary.push((now, Note::ContactRead(value)));
        Vec::new()
    }

    /// A closed connection: its transmissions "run on with no owner".
    pub fn close(&mut self, connection: u64) -> Vec<Said> {
        if connection > 7 {
            return vec![Said::Refusal(102)];
        }
        let now = self.now;
        for sending in self.connectors.iter_mut().filter_map(Connector::sending_mut) {
            if sending.owner() == Some(connection) {
                sending.orphaned = Some(now);
            }
        }
        Vec::new()
    }

    /// "A wait returns up to three completions, ordered by moment from the wait's start, then by port." Only waits move time.
    pub fn wait(&mut self, microseconds: u64) -> Vec<Said> {
        if microseconds > 1_000_000_000 {
            return vec![Said::Refusal(103)];
        }
        let start = self.now;
        self.now = Moment(start.0 + u128::from(microseconds));
        let mut completed = Vec::new();
        for port in 1..=3 {
            let due = self.connector(port).sending().map(Sending::completes).filter(|moment| *moment <= self.now);
            if let Some(moment) = due {
                self.connector_mut(port).end(moment, Ending::Completed);
                completed.push((moment, port));
            }
        }
        completed.sort_by_key(|(moment, port)| (*moment, *port));
        completed.into_iter().flat_map(|(moment, port)| self.completion(port, moment.0 - start.0)).collect()
    }

    /// "One without an owner is listed without an addressee."
    fn completion(&self, port: u64, after: u128) -> Option<Said> {
        let sending = self.connector(port).sendings.last()?;
        Some(Said::Completion { after, to: sending.owner(), text: format!("completeir,1:{port},{}", sending.command.id) })
    }

    // ---- The bench's script

    /// One line of a script, without its LF.
    pub fn script_line(&mut self, line: &[u8]) -> Vec<Said> {
        let Some(space) = line.iter().position(|byte| *byte == b' ') else {
            return vec![Said::AnotherForm];
        };
        let (head, rest) = (&line[..space], &line[space + 1..]);
        let items: Vec<Option<u64>> = rest.split(|byte| *byte == b' ').map(script_number).collect();
        match (head, &items[..]) {
            (b"r", [Some(port), Some(value)]) => self.read_contact(*port, *value),
            (b"x", [Some(connection)]) => self.close(*connection),
            (b"w", [Some(microseconds)]) => self.wait(*microseconds),
            _ => match script_number(head) {
                Some(connection) => self.line(connection, rest),
                None => vec![Said::AnotherForm],
            },
        }
    }
}

/// "Numbers of 1 to 10 digits."
fn script_number(text: &[u8]) -> Option<u64> {
    (is_number(text) && text.len() <= 10).then(|| decimal(text))
}

pub fn printed(said: &[Said]) -> String {
    said.iter().map(Said::printed).collect()
}

/// The lines of a script, each with its LF; only the last may lack it.
pub fn script_lines(script: &[u8]) -> impl Iterator<Item = &[u8]> {
    script.split_inclusive(|byte| *byte == b'\n')
}

/// "Each ended by LF": bytes after the last LF are one line of another form.
pub fn step(hub: &mut Hub, line: &[u8]) -> Vec<Said> {
    match line.strip_suffix(b"\n") {
        Some(whole) => hub.script_line(whole),
        None => vec![Said::AnotherForm],
    }
}

pub fn main() -> io::Result<()> {
    let mut script = Vec::new();
    io::stdin().read_to_end(&mut script)?;
    let mut hub = Hub::fresh();
    let output: String = script_lines(&script).map(|line| printed(&step(&mut hub, line))).collect();
    io::stdout().write_all(output.as_bytes())
}
