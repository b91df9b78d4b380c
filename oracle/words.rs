//! Commands and requests at random, good and faulty, and the ways to write them.

use super::hub::{Command, Pair, MOST_PAIRS};
use super::random::Random;

const NAMES: [&str; 10] = [
    "getdevices", "getversion", "set_IR", "get_IR", "setstate", "getstate", "sendir", "stopir", "set_LED_LIGHTING", "get_LED_LIGHTING",
];
const OTHER_NAMES: [&str; 18] = [
    "", "getdevice", "getdevicess", "GETDEVICES", "getdevices ", " getversion", "get_ir", "set_IRL", "get_IRL", "sendIR", "sendi",
    "stopir:1", "unknowncommand", "setstate2", "set_LED", "get_LED_LIGHTINGS", "set_led_lighting", "LED_LIGHTING",
];
const OTHER_ADDRESSES: [&str; 16] =
    ["", "1", "1:", ":1", ":", "1:1x", "x1:1", "1:1:1", "1;1", "1: 1", " 1:1", "1:1 ", "-1:1", "1:+1", "a:b", "2:"];
const OTHER_MODULES: [&str; 6] = ["0", "3", "5", "0000001", "0000002", "9999999999"];
const OTHER_PORTS: [&str; 7] = ["0", "4", "000004", "0000001", "1000000", "99999999999999999999999", "18446744073709551617"];
const MODES: [&str; 4] = ["IR", "SENSOR", "IR_BLASTER", "LED_LIGHTING"];
const OTHER_MODES: [&str; 12] =
    ["", "ir", "IRx", "IR ", "I", "SENSOR_NOTIFY", "LED", "LED_LIGHTINGS", "led_lighting", "IR_BLASTERS", "Sensor", "0"];
const STATES: [&str; 5] = ["0", "1", "00", "01", "000001"];
const OTHER_STATES: [&str; 8] = ["", "2", "1x", " 1", "0000001", "10", "-1", "x"];
const NOT_NUMBERS: [&str; 9] = ["", "x", "-1", "+1", " 1", "1 ", "1.5", "1x", "1A"];
const TOO_LONG_NUMBERS: [&str; 3] = ["0000001", "0000021", "1000000"];
const SURPLUS: [&str; 6] = [",", ",x", ",1", ",,", ", ", ",IR"];
const BEHIND_A_CODE: [&str; 17] =
    [",", ",4", ",3", ",A", ",,", "A", "B", "Z", "P", "Ax", ",x", "x", ",50000,50000", ",4,x", "AA", "A4,x", "A,"];
const CODE_BYTES: &[u8] = b",,,,,,00123456789AAABBCDOPQZazm.: -";

/// How a long line may begin.
pub const LONG_LINE_STARTS: [&str; 7] =
    ["getdevices,", "getversion", "", "stopir,1:1,", "set_IR,1:1,IR", "sendir,1:1,1,40000,1,1,24,24", "sendir,1:2,"];

/// Lines of a script at the limits of the calls, on either side.
pub const AT_CALL_LIMITS: [&str; 27] = [
    "7 getversion", "8 getversion", "0000000007 getversion", "0000000008 getversion", "9999999999 getversion", "8 \u{1}", "8 ", "x 7",
    "x 8", "x 0000000000", "x 9999999999", "r 0 0", "r 4 0", "r 1 2", "r 2 2", "r 3 2", "r 3 9999999999", "r 9999999999 1",
    "r 0000000001 0000000001", "r 4294967297 0", "r 1 4294967296", "w 1000000000", "w 1000000001", "w 9999999999", "w 0000000000",
    "w 0000000001", "w 4294967296",
];

/// Lines of another form than a script knows.
pub const OF_ANOTHER_FORM: [&str; 44] = [
    "", " ", "0", "7", "r", "r ", "r 1", "r 1 0 ", "r  1 0", "r 1  0", "r 1 0 0", " r 1 0", "r 1 x", "r 00000000001 0", "r 1 00000000000",
    "x", "x ", "x 1 ", "x 1 2", "x a", "x 00000000001", "w", "w ", "w 1 ", "w -1", "w 1x", "w  1", "W 1", "q 1", "00000000001 getversion",
    "12345678901 getversion", "a getversion", "-1 getversion", "0\tgetversion", "0x getversion", " 0 getversion", "\r", "w 1\r", "x 0\r",
    "getversion", "getdevices ", "0getversion", "0,getversion", "00000000000000000000000000000000000000000000 getversion",
];

/// Frequencies whose period is a whole number of microseconds, so that every boundary falls on one.
const WHOLE_FREQUENCIES: [u64; 10] = [15_625, 20_000, 25_000, 31_250, 40_000, 50_000, 62_500, 100_000, 250_000, 500_000];
const USUAL_FREQUENCIES: [u64; 9] = [15_000, 23_400, 36_700, 38_000, 48_000, 56_000, 60_000, 455_000, 499_999];

fn smallest_count(freq: u64) -> u64 {
    freq.div_ceil(12_500).max(4)
}

#[derive(Clone, Copy)]
enum Form {
    Plain,
    Lettered,
    Mixed,
}

impl Random {
    pub fn port(&mut self) -> u64 {
        self.between(1, 3)
    }

    // ---- Commands

    pub fn freq(&mut self) -> u64 {
        match self.below(10) {
            0..=5 => self.pick(&WHOLE_FREQUENCIES),
            6..=7 => self.pick(&USUAL_FREQUENCIES),
            _ => self.between(15_000, 500_000),
        }
    }

    fn count(&mut self, freq: u64) -> u64 {
        let smallest = smallest_count(freq);
        match self.below(40) {
            0 => 50_000,
            1 => self.between(smallest, 50_000),
            2..=9 => smallest,
            _ => self.between(smallest, smallest + 60),
        }
    }

    fn distinct_pairs(&mut self, freq: u64, number: usize) -> Vec<Pair> {
        let mut pairs = Vec::new();
        while pairs.len() < number {
            let pair = (self.count(freq), self.count(freq));
            if !pairs.contains(&pair) {
                pairs.push(pair);
            }
        }
        pairs
    }

    pub fn pairs(&mut self, freq: u64, number: usize) -> Vec<Pair> {
        let kinds = self.pick(&[1, 2, 2, 3, 5, 15, 16, 17, 20]).min(number);
        let known = self.distinct_pairs(freq, kinds);
        (0..number).map(|_| self.pick(&known)).collect()
    }

    /// Sixteen distinct pairs, each twice.
    fn sixteen_twice(&mut self, freq: u64) -> Vec<Pair> {
        let known = self.distinct_pairs(freq, 16);
        let mut pairs = [known.clone(), known].concat();
        if self.one_in(2) {
            self.shuffle(&mut pairs);
        }
        pairs
    }

    pub fn command_of(&mut self, freq: u64, pairs: Vec<Pair>) -> Command {
        let id = if self.one_in(6) { self.pick(&[0, 65_535]) } else { self.below(65_536) };
        let repeat = self.pick(&[1, 1, 2, 2, 3, 4, 7, 19, 20, 20]);
        let last = (2 * pairs.len() as u64 - 1).min(383);
        let offset = if self.one_in(3) { last } else { 1 + 2 * self.below(last / 2 + 1) };
        Command { id, freq, repeat, offset, pairs }
    }

    pub fn command(&mut self) -> Command {
        let freq = self.freq();
        let pairs = match self.below(60) {
            0 => self.pairs(freq, MOST_PAIRS),
            1 => {
                let number = self.between(100, 259) as usize;
                self.pairs(freq, number)
            }
            2..=5 => self.sixteen_twice(freq),
            6..=20 => {
                let number = self.between(5, 24) as usize;
                self.pairs(freq, number)
            }
            _ => {
                let number = self.between(1, 4) as usize;
                self.pairs(freq, number)
            }
        };
        self.command_of(freq, pairs)
    }

    /// The command with one field changed, and still within the limits.
    pub fn changed(&mut self, command: &Command) -> Command {
        let mut other = command.clone();
        let place = self.below(command.pairs.len() as u64) as usize;
        match self.below(7) {
            0 => other.id = (command.id + 1) % 65_536,
            1 if command.freq > 15_000 => other.freq -= 1,
            2 => other.repeat = command.repeat % 20 + 1,
            3 if command.offset > 1 => other.offset -= 2,
            4 => other.pairs[place].0 = command.pairs[place].0 % 50_000 + 1,
            5 => other.pairs[place].1 = command.pairs[place].1 % 50_000 + 1,
            _ => other.pairs.rotate_left(place),
        }
        let smallest = smallest_count(other.freq);
        other.pairs.iter_mut().for_each(|pair| *pair = (pair.0.max(smallest), pair.1.max(smallest)));
        other
    }

    // ---- Commands as text

    fn form(&mut self) -> Form {
        self.pick(&[Form::Plain, Form::Lettered, Form::Mixed])
    }

    fn numeral(&mut self, value: u64, zeros: bool) -> String {
        let width = if zeros { self.between(1, 6) as usize } else { 1 };
        format!("{value:0width$}")
    }

    fn code_text(&mut self, pairs: &[Pair], form: Form, zeros: bool) -> String {
        let mut text = String::new();
        let mut lettered: Vec<Pair> = Vec::new();
        for (place, pair) in pairs.iter().enumerate() {
            let letter = lettered.iter().position(|known| known == pair);
            let wanted = match form {
                Form::Plain => false,
                Form::Lettered => true,
                Form::Mixed => self.one_in(2),
            };
            if let Some(index) = letter.filter(|_| wanted) {
                text.push(char::from(b'A' + index as u8));
                continue;
            }
            if place > 0 && text.ends_with(|last: char| last.is_ascii_digit()) {
                text.push(',');
            }
            text += &format!("{},{}", self.numeral(pair.0, zeros), self.numeral(pair.1, zeros));
            if letter.is_none() && lettered.len() < 15 {
                lettered.push(*pair);
            }
        }
        text
    }

    fn repeat_text(&mut self, repeat: u64, zeros: bool) -> String {
        let many = self.between(21, 999_999);
        let written = if repeat == 20 { self.pick(&[20, 21, 999_999, many]) } else { repeat };
        self.numeral(written, zeros)
    }

    /// One of the ways to write a sendir.
    pub fn spelled(&mut self, port: u64, command: &Command) -> String {
        let zeros = self.one_in(6);
        let form = self.form();
        let fields = [command.id, command.freq].map(|value| self.numeral(value, zeros));
        let [module, port, offset] = [1, port, command.offset].map(|value| self.numeral(value, zeros));
        let repeat = self.repeat_text(command.repeat, zeros);
        let code = self.code_text(&command.pairs, form, zeros);
        format!("sendir,{module}:{port},{},{repeat},{offset},{code}", fields.join(","))
    }

    // ---- Requests with faults, often several in one line, so that their order shows

    fn address_text(&mut self, module: u64) -> String {
        let (port, zeros) = (self.port(), self.one_in(8));
        let (module, port) = (self.numeral(module, zeros), self.numeral(port, zeros));
        match self.below(24) {
            0 => self.pick(&OTHER_ADDRESSES).to_string(),
            1 => format!("{}:{port}", self.pick(&OTHER_MODULES)),
            2 => format!("{module}:{}", self.pick(&OTHER_PORTS)),
            3 => format!("{}:{}", self.pick(&OTHER_MODULES), self.pick(&OTHER_PORTS)),
            4 => format!("{}:{port}", self.below(4)),
            _ => format!("{module}:{port}"),
        }
    }

    fn word(&mut self, good: &[&'static str], bad: &[&'static str]) -> &'static str {
        if self.one_in(4) {
            self.pick(bad)
        } else {
            self.pick(good)
        }
    }

    pub fn mode_word(&mut self) -> &'static str {
        self.word(&MODES, &OTHER_MODES)
    }

    pub fn state_word(&mut self) -> &'static str {
        self.word(&STATES, &OTHER_STATES)
    }

    /// Mostly nothing behind a request.
    pub fn surplus(&mut self) -> &'static str {
        if self.one_in(6) {
            self.pick(&SURPLUS)
        } else {
            ""
        }
    }

    /// A number of a request: mostly good, or at a limit, or over it, or no number.
    pub fn field(&mut self, good: u64, limits: &[&'static str]) -> String {
        match self.below(30) {
            0 => self.pick(&NOT_NUMBERS).to_string(),
            1 => self.pick(&TOO_LONG_NUMBERS).to_string(),
            2..=4 => self.pick(limits).to_string(),
            _ => good.to_string(),
        }
    }

    /// A lamp's target and ramp.
    pub fn lamp_fields(&mut self) -> String {
        let (good_target, good_ramp) = (self.between(1, 100), self.between(0, 10));
        let target = self.field(good_target, &["0", "000", "1", "100", "000100", "101"]);
        let ramp = self.field(good_ramp, &["0", "000000", "1", "10", "000010", "11"]);
        format!("{target},{ramp}")
    }

    /// A code that was good, with some bytes changed.
    fn damaged_code(&mut self, freq: u64) -> String {
        let number = self.between(1, 5) as usize;
        let (pairs, form) = (self.pairs(freq, number), self.form());
        let mut text = self.code_text(&pairs, form, false).into_bytes();
        for _ in 0..self.between(1, 2) {
            let place = self.below(text.len() as u64 + 1) as usize;
            match self.below(4) {
                0 => text.truncate(place),
                1 if place < text.len() => drop(text.remove(place)),
                2 if place < text.len() => text[place] = self.pick(CODE_BYTES),
                _ => text.insert(place, self.pick(CODE_BYTES)),
            }
        }
        String::from_utf8_lossy(&text).into_owned()
    }

    /// A code with a count at or over a limit.
    fn code_at_limits(&mut self, freq: u64) -> String {
        let smallest = smallest_count(freq);
        let mut counts: Vec<String> = (0..self.between(1, 6)).map(|_| self.count(freq).to_string()).collect();
        let place = self.below(counts.len() as u64) as usize;
        counts[place] = match self.below(7) {
            0 => (smallest - 1).to_string(),
            1 => smallest.to_string(),
            2 => format!("{smallest:06}"),
            3 => format!("{smallest:07}"),
            4 => "50000".to_string(),
            5 => "50001".to_string(),
            _ => self.pick(&NOT_NUMBERS).to_string(),
        };
        counts.join(",")
    }

    /// Fourteen to seventeen distinct pairs and a letter near O, which is the last that a pair can get.
    fn code_of_many_pairs(&mut self, freq: u64) -> String {
        let number = self.between(14, 17) as usize;
        let pairs = self.distinct_pairs(freq, number);
        format!("{}{}", self.code_text(&pairs, Form::Plain, false), self.pick(&["M", "N", "O", "P", "Q"]))
    }

    /// 259 to 261 pairs, and often something behind them.
    pub fn full_code(&mut self, freq: u64) -> String {
        let (form, zeros) = (self.form(), self.one_in(4));
        let number = self.pick(&[259, 260, 260, 261]);
        let pairs = self.pairs(freq, number);
        let code = self.code_text(&pairs, form, zeros);
        let tail = if self.one_in(8) { "" } else { self.pick(&BEHIND_A_CODE) };
        format!("{code}{tail}")
    }

    pub fn any_code(&mut self, freq: u64) -> String {
        match self.below(13) {
            0..=5 => self.damaged_code(freq),
            6..=7 => self.code_at_limits(freq),
            8 => self.code_of_many_pairs(freq),
            _ => {
                let number = self.between(1, 4) as usize;
                let (pairs, form) = (self.pairs(freq, number), self.form());
                self.code_text(&pairs, form, false)
            }
        }
    }

    fn any_sendir(&mut self) -> String {
        let (address, freq) = (self.address_text(1), self.freq());
        let any_id = self.below(65_536);
        let id = self.field(any_id, &["0", "00", "65535", "065535", "65536"]);
        let freq_text = self.field(freq, &["15000", "015000", "14999", "500000", "500001"]);
        let repeat = self.field(1, &["0", "000000", "20", "21", "999999", "000001", "1000000"]);
        let offset = self.field(1, &["0", "2", "3", "5", "382", "383", "384", "385", "000001"]);
        let judged = freq_text.parse().ok().filter(|given| (15_000..=500_000).contains(given)).unwrap_or(freq);
        let code = self.any_code(judged);
        let mut fields = vec!["sendir".to_string(), address, id, freq_text, repeat, offset, code];
        if self.one_in(12) {
            fields.truncate(self.between(1, 6) as usize);
        }
        fields.join(",")
    }

    pub fn any_request_text(&mut self) -> String {
        let name = if self.one_in(16) { self.pick(&OTHER_NAMES) } else { self.pick(&NAMES) };
        let request = match name {
            "getdevices" | "getversion" => name.to_string(),
            "sendir" => return self.any_sendir(),
            "set_IR" => format!("{name},{},{}", self.address_text(1), self.mode_word()),
            "setstate" => format!("{name},{},{}", self.address_text(2), self.state_word()),
            "set_LED_LIGHTING" => format!("{name},{},{}", self.address_text(1), self.lamp_fields()),
            _ => {
                let module = if name == "getstate" { self.between(1, 2) } else { 1 };
                format!("{name},{}", self.address_text(module))
            }
        };
        let cut = request.rfind(',').filter(|_| self.one_in(16)).unwrap_or(request.len());
        format!("{}{}", &request[..cut], self.surplus())
    }
}
