//! scripts SEED LINES: prints one script for the bench, the same for the same seed. To meet exact moments the generator runs the oracle
//! beside what it writes and asks it where its transmissions and lamps are; it need not be independent of it.

#[path = "hub.rs"]
#[allow(dead_code)] // only some of the hub's questions are asked here
pub mod hub;
#[path = "random.rs"]
mod random;
#[path = "words.rs"]
mod words;

use hub::{Command, Hub, Lamp, Level, Moment, Periods, Sending, MOST_PAIRS};
use random::Random;
use std::cmp::Reverse;
use std::io::{self, Write};
use words::{AT_CALL_LIMITS, LONG_LINE_STARTS, OF_ANOTHER_FORM};

const LONGEST_WAIT: u128 = 1_000_000_000;

struct Script {
    hub: Hub,
    random: Random,
    text: Vec<u8>,
    left: usize,
}

impl Script {
    fn line(&mut self, line: impl AsRef<[u8]>) {
        if self.left > 0 {
            self.left -= 1;
            self.text.extend(line.as_ref());
            self.text.push(b'\n');
            self.hub.script_line(line.as_ref());
        }
    }

    fn request(&mut self, connection: u64, request: impl AsRef<[u8]>) {
        self.line([format!("{connection} ").as_bytes(), request.as_ref()].concat());
    }

    fn send(&mut self, connection: u64, port: u64, command: &Command) {
        let line = self.random.spelled(port, command);
        self.request(connection, line);
    }

    // ---- Choices

    /// Few connections, so that the same one often comes again.
    fn connection(&mut self) -> u64 {
        let many = self.random.pick(&[3, 3, 8]);
        self.random.below(many)
    }

    fn chosen_port(&mut self, wanted: fn(&hub::Connector) -> bool) -> Option<u64> {
        let ports: Vec<u64> = (1..=3).filter(|port| wanted(self.hub.connector(*port))).collect();
        if ports.is_empty() {
            None
        } else {
            Some(self.random.pick(&ports))
        }
    }

    fn busy_port(&mut self) -> Option<u64> {
        self.chosen_port(|connector| connector.sending().is_some())
    }

    fn owned_port(&mut self) -> Option<u64> {
        self.chosen_port(|connector| connector.sending().is_some_and(|sending| sending.owner().is_some()))
    }

    fn idle_port(&mut self) -> Option<u64> {
        self.chosen_port(|connector| connector.sending().is_none() && connector.mode().can_transmit())
    }

    fn sending(&self, port: u64) -> Option<&Sending> {
        self.hub.connector(port).sending()
    }

    fn owner(&self, port: u64) -> Option<u64> {
        self.sending(port).and_then(Sending::owner)
    }

    // ---- Time

    /// Waits that end at a moment. One that is too far off is only come nearer to.
    fn wait_until(&mut self, moment: Moment) {
        for _ in 0..3 {
            if moment > self.hub.now {
                self.line(format!("w {}", (moment.0 - self.hub.now.0).min(LONGEST_WAIT)));
            }
        }
    }

    /// The moment itself, or a microsecond to either side.
    fn near(&mut self, moment: Moment) -> Moment {
        Moment(moment.0 + self.random.pick(&[0, 1, 2]) - 1)
    }

    /// The next copy boundary of a connector, a later one, or its completion.
    fn boundary(&mut self, port: u64) -> Option<Moment> {
        let sending = self.hub.connector(port).sending()?;
        let done = sending.done_at(self.hub.now);
        let ahead: Vec<Periods> = sending.copies.iter().map(|copy| copy.begins).filter(|place| !done.reaches(*place)).collect();
        let chosen = match self.random.below(4) {
            0 => sending.total(),
            1 | 2 => ahead.first().copied().unwrap_or(sending.total()),
            _ if ahead.is_empty() => sending.total(),
            _ => self.random.pick(&ahead),
        };
        Some(sending.first_moment_at(chosen))
    }

    fn approach_boundary(&mut self, port: u64) {
        if let Some(moment) = self.boundary(port) {
            let near = self.near(moment);
            self.wait_until(near);
        }
    }

    /// Waits to a connector's completion, or to a microsecond before or after.
    fn finish(&mut self, port: u64) {
        if let Some(moment) = self.sending(port).map(Sending::completes) {
            let near = self.near(moment);
            self.wait_until(near);
            if self.random.one_in(2) {
                self.line("w 1");
            }
        }
    }

    // ---- Moves: each writes a few lines that belong together

    fn start(&mut self) {
        let command = self.random.command();
        let port = self.idle_port().unwrap_or(self.random.port());
        if !self.hub.connector(port).mode().can_transmit() {
            self.request(0, format!("set_IR,1:{port},IR"));
        }
        let connection = self.connection();
        self.send(connection, port, &command);
    }

    /// The owner sends the same again, often near a boundary, and perhaps more than once.
    fn renew(&mut self) {
        let Some(port) = self.owned_port() else {
            return self.start();
        };
        for _ in 0..self.random.between(1, 3) {
            if !self.random.one_in(4) {
                self.approach_boundary(port);
            }
            let Some(sending) = self.hub.connector(port).sendings.last() else {
                return;
            };
            let (starter, command) = (sending.starter, sending.command.clone());
            self.send(starter, port, &command);
        }
        if self.random.one_in(2) {
            self.finish(port);
        }
    }

    fn replace(&mut self) {
        let Some(port) = self.owned_port() else {
            return self.start();
        };
        if self.random.one_in(2) {
            self.approach_boundary(port);
        }
        if let Some((owner, command)) = self.sending(port).map(|sending| (sending.starter, sending.command.clone())) {
            let other = self.random.changed(&command);
            self.send(owner, port, &other);
            if self.random.one_in(2) {
                self.finish(port);
            }
        }
    }

    /// Somebody else sends to a busy connector, sometimes the very same.
    fn intrude(&mut self) {
        let Some(port) = self.busy_port() else {
            return self.start();
        };
        let other = (self.owner(port).unwrap_or(0) + self.random.between(1, 7)) % 8;
        let running = self.sending(port).map(|sending| sending.command.clone());
        let command = running.filter(|_| self.random.one_in(2)).unwrap_or_else(|| self.random.command());
        self.send(other, port, &command);
    }

    fn halt(&mut self) {
        let port = self.busy_port().filter(|_| !self.random.one_in(6)).unwrap_or(self.random.port());
        let anyone = self.connection();
        let asker = self.owner(port).filter(|_| self.random.one_in(2)).unwrap_or(anyone);
        self.request(asker, format!("stopir,1:{port}"));
    }

    /// The owner goes, and its number comes back to a transmission that is nobody's.
    fn orphan(&mut self) {
        let Some(port) = self.owned_port() else {
            return self.start();
        };
        let Some((owner, command)) = self.sending(port).map(|sending| (sending.starter, sending.command.clone())) else {
            return;
        };
        self.line(format!("x {owner}"));
        for _ in 0..self.random.between(1, 3) {
            match self.random.below(6) {
                0..=2 => self.send(owner, port, &command),
                3 => self.finish(port),
                4 => self.request(owner, format!("set_IR,1:{port},SENSOR")),
                _ => self.approach_boundary(port),
            }
        }
        if self.random.one_in(6) {
            self.request(owner, format!("stopir,1:{port}"));
        }
    }

    fn finish_one(&mut self) {
        if let Some(port) = self.busy_port() {
            self.finish(port);
        }
    }

    /// Makes a connector idle and able to send.
    fn free(&mut self, port: u64) {
        if self.sending(port).is_some() {
            self.request(0, format!("stopir,1:{port}"));
        }
        if !self.hub.connector(port).mode().can_transmit() {
            self.request(0, format!("set_IR,1:{port},IR"));
        }
    }

    /// Two or three connectors that complete in the same microsecond: the longest is started first.
    fn finish_together(&mut self) {
        let mut ports = [1, 2, 3];
        self.random.shuffle(&mut ports);
        let ports = &ports[..self.random.between(2, 3) as usize];
        let same = self.random.one_in(2);
        let first = self.random.command();
        let mut plan: Vec<(u128, u64, Command)> = Vec::new();
        for port in ports {
            self.free(*port);
            let command = if same { Command { id: *port, ..first.clone() } } else { self.random.command() };
            plan.push((Sending::start(0, Moment(0), b"", command.clone()).completes().0, *port, command));
        }
        plan.sort_by_key(|(length, ..)| Reverse(*length));
        let end = Moment(self.hub.now.0 + plan[0].0);
        for (length, port, command) in plan {
            if end.0 >= length {
                self.wait_until(Moment(end.0 - length));
            }
            let connection = self.connection();
            self.send(connection, port, &command);
        }
        let near = self.near(end);
        self.wait_until(near);
    }

    fn some_wait(&mut self) {
        let most = self.random.pick(&[0, 1, 2, 100, 1_000, 100_000, 1_000_000, 30_000_000]);
        let microseconds = self.random.between(0, most);
        self.line(format!("w {microseconds}"));
    }

    /// A contact over readings and changes of mode.
    fn contact(&mut self) {
        let port = self.chosen_port(|connector| connector.sending().is_none()).unwrap_or(1);
        for _ in 0..self.random.between(3, 8) {
            let connection = self.connection();
            match self.random.below(12) {
                0..=3 => self.request(connection, format!("set_IR,1:{port},SENSOR")),
                4..=5 => {
                    let mode = self.random.pick(&["IR", "IR_BLASTER", "LED_LIGHTING"]);
                    self.request(connection, format!("set_IR,1:{port},{mode}"));
                }
                6 => self.request(connection, format!("get_IR,1:{port}")),
                7..=8 => {
                    let value = self.random.below(2);
                    self.line(format!("r {port} {value}"));
                }
                _ => self.request(connection, format!("getstate,1:{port}")),
            }
        }
        if self.random.one_in(2) {
            self.request(0, format!("set_IR,1:{port},IR"));
        }
    }

    /// A lamp over some of its life. It is often left as it is, so that the time of other moves passes over it.
    fn lamp(&mut self) {
        let idle = self.chosen_port(|connector| connector.sending().is_none());
        let lamp = self.chosen_port(|connector| connector.lamp().is_some());
        let port = lamp.filter(|_| self.random.one_in(2)).or(idle).unwrap_or(1);
        self.request(0, format!("set_IR,1:{port},LED_LIGHTING"));
        self.dim(port);
        for _ in 0..self.random.between(2, 8) {
            match self.random.below(10) {
                0..=3 => self.dim(port),
                4..=7 => self.watch_lamp(port),
                8 => self.disturb_lamp(port),
                _ => self.some_wait(),
            }
        }
        if self.random.one_in(3) {
            self.request(0, format!("set_IR,1:{port},IR"));
        }
    }

    fn dim(&mut self, port: u64) {
        let (connection, fields, surplus) = (self.connection(), self.random.lamp_fields(), self.random.surplus());
        self.request(connection, format!("set_LED_LIGHTING,1:{port},{fields}{surplus}"));
    }

    /// Asks where a lamp reaches or passes a percent, the next one, its target or another, or a microsecond before or after.
    fn watch_lamp(&mut self, port: u64) {
        let ahead = self.hub.connector(port).lamp().map_or(Vec::new(), |lamp| percents_ahead(&lamp, self.hub.now));
        if let (Some(next), Some(last)) = (ahead.iter().min(), ahead.iter().max()) {
            let another = self.random.pick(&ahead);
            let chosen = self.random.pick(&[*next, *last, another]);
            let near = self.near(chosen);
            self.wait_until(near);
        }
        let (connection, surplus) = (self.connection(), self.random.surplus());
        self.request(connection, format!("get_LED_LIGHTING,1:{port}{surplus}"));
        if self.random.one_in(3) {
            self.line("w 1");
            self.request(connection, format!("get_LED_LIGHTING,1:{port}"));
        }
    }

    /// What a lamp refuses or is not touched by, and changes of mode.
    fn disturb_lamp(&mut self, port: u64) {
        let (connection, surplus) = (self.connection(), self.random.surplus());
        match self.random.below(10) {
            0 => {
                let fields = self.random.pick(&["", ",x", ",7,40000,1,1,4", ",7,40000,1,1,24,960"]);
                self.request(connection, format!("sendir,1:{port}{fields}"));
            }
            1 => self.request(connection, format!("stopir,1:{port}{surplus}")),
            2 => self.request(connection, format!("getstate,1:{port}{surplus}")),
            3 => {
                let value = self.random.below(2);
                self.line(format!("r {port} {value}"));
            }
            4 => self.line(format!("x {connection}")),
            5 => self.line(format!("w {}", LONGEST_WAIT + 1)),
            6 => self.line(format!("w {LONGEST_WAIT}")),
            _ => {
                let mode = self.random.mode_word();
                self.request(connection, format!("set_IR,1:{port},{mode}{surplus}"));
                self.request(connection, format!("set_IR,1:{port},LED_LIGHTING"));
                self.watch_lamp(port);
            }
        }
    }

    fn relay(&mut self) {
        let (connection, port) = (self.connection(), self.random.port());
        let state = self.random.state_word();
        self.request(connection, format!("setstate,2:{port},{state}"));
        let asked = self.random.port();
        self.request(connection, format!("getstate,2:{asked}"));
    }

    fn any_request(&mut self) {
        let (connection, request) = (self.connection(), self.random.any_request_text());
        self.request(connection, request);
    }

    /// A faulty or good line to a connector that is busy.
    fn fault_while_busy(&mut self) {
        if let Some(port) = self.busy_port() {
            let connection = self.connection();
            let freq = self.random.freq();
            let code = self.random.any_code(freq);
            let offset = self.random.field(1, &["2", "3", "383", "385"]);
            let mode = self.random.mode_word();
            let tail = self.random.pick(&["", "", ","]);
            match self.random.below(3) {
                0 => self.request(connection, format!("set_IR,1:{port},{mode}{tail}")),
                _ => self.request(connection, format!("sendir,1:{port},7,{freq},1,{offset},{code}")),
            }
        }
    }

    /// A request in which one byte is any byte but LF.
    fn odd_byte(&mut self) {
        let mut request = self.random.any_request_text().into_bytes();
        let byte = self.random.below(256) as u8;
        if byte != b'\n' {
            let place = self.random.below(request.len() as u64 + 1) as usize;
            request.insert(place, byte);
        }
        let connection = self.connection();
        self.request(connection, request);
    }

    // ---- The limits of codes, lines and calls

    /// Codes of 259 to 261 pairs, and what may stand behind them.
    fn full_code(&mut self) {
        let (freq, port, connection) = (self.random.freq(), self.random.port(), self.connection());
        let offset = self.random.pick(&[1, 3, 383]);
        let code = self.random.full_code(freq);
        self.request(connection, format!("sendir,1:{port},260,{freq},1,{offset},{code}"));
    }

    /// The longest line that can be accepted: every number with six digits, 260 pairs, 3,688 bytes; and the same in few bytes.
    fn longest_code(&mut self) {
        let (freq, port) = (self.random.freq(), self.random.port());
        let pairs = self.random.pairs(freq, MOST_PAIRS);
        let command = Command { repeat: 20, ..self.random.command_of(freq, pairs) };
        self.free(port);
        let counts: Vec<String> = command.pairs.iter().map(|(on, off)| format!("{on:06},{off:06}")).collect();
        let Command { id, offset, .. } = command;
        let connection = self.connection();
        let long = format!("sendir,000001:{port:06},{id:06},{freq:06},000020,{offset:06},{}", counts.join(","));
        self.request(connection, long);
        self.some_wait();
        self.send(connection, port, &command);
    }

    /// A long code that is renewed over and over, after the longest waits.
    fn marathon(&mut self) {
        let (freq, port, connection) = (self.random.pick(&[15_000, 15_001, 38_000]), self.random.port(), self.connection());
        let number = self.random.between(20, 120) as usize;
        let pairs = vec![(50_000, 49_999); number];
        let command = Command { repeat: 20, ..self.random.command_of(freq, pairs) };
        self.free(port);
        for _ in 0..self.random.between(3, 12) {
            self.send(connection, port, &command);
            self.line(format!("w {LONGEST_WAIT}"));
        }
        self.approach_boundary(port);
        self.send(connection, port, &command);
    }

    /// Lines of 4,096 and 4,097 bytes and around, of every sort, some far longer; and other long lines of a script.
    fn long_line(&mut self) {
        let length = self.random.pick(&[4_095, 4_096, 4_096, 4_096, 4_097, 4_097, 4_097, 4_098, 5_000, 8_192, 70_000]);
        let start = self.random.pick(&LONG_LINE_STARTS);
        let filler = self.random.pick(&[",24,24", "A", "0", ",", "1", "x", "\u{1}"]);
        let mut request = start.as_bytes().to_vec();
        while request.len() < length {
            request.extend(filler.as_bytes());
        }
        request.truncate(length);
        let head = self.random.pick(&["0 ", "1 ", "2 ", "3 ", "7 ", "8 ", "w ", "x ", "r 1 ", "q ", ""]);
        self.line([head.as_bytes(), &request].concat());
    }

    fn call_limit(&mut self) {
        let line = self.random.pick(&AT_CALL_LIMITS);
        self.line(line);
    }

    fn another_form(&mut self) {
        let line = self.random.pick(&OF_ANOTHER_FORM);
        self.line(line);
    }

    /// Bytes without any sense.
    fn noise(&mut self) {
        let length = self.random.below(40);
        let bytes: Vec<u8> = (0..length).map(|_| self.random.below(256) as u8).filter(|byte| *byte != b'\n').collect();
        if self.random.one_in(2) {
            self.request(1, bytes);
        } else {
            self.line(bytes);
        }
    }

    // ---- The whole

    /// One move, by weight: lines of thousands of bytes stay few.
    fn play(&mut self) {
        const MOVES: [(u64, fn(&mut Script)); 23] = [
            (30, Script::start),
            (36, Script::renew),
            (18, Script::replace),
            (15, Script::intrude),
            (9, Script::halt),
            (15, Script::orphan),
            (15, Script::finish_one),
            (12, Script::finish_together),
            (15, Script::some_wait),
            (9, |script| script.line("w 0")),
            (15, Script::contact),
            (18, Script::lamp),
            (9, Script::relay),
            (72, Script::any_request),
            (15, Script::fault_while_busy),
            (12, Script::odd_byte),
            (3, Script::noise),
            (6, Script::another_form),
            (4, Script::call_limit),
            (3, Script::full_code),
            (1, Script::longest_code),
            (1, Script::marathon),
            (1, Script::long_line),
        ];
        let mut left = self.random.below(MOVES.iter().map(|(weight, _)| weight).sum());
        for (weight, a_move) in MOVES {
            if left < weight {
                return a_move(self);
            }
            left -= weight;
        }
    }

    /// Lets what is under way end, and asks for every state, so that a hub which went astray shows it.
    fn settle(&mut self) {
        for port in 1..=3 {
            if let Some(moment) = self.sending(port).map(Sending::completes) {
                self.wait_until(moment);
            }
        }
        for question in ["get_IR,1", "getstate,2", "getstate,1", "get_LED_LIGHTING,1"] {
            (1..=3).for_each(|port| self.request(0, format!("{question}:{port}")));
        }
        while self.left > 1 {
            self.another_form();
        }
        self.request(0, "getversion");
    }
}

/// The moments when a lamp will reach, or pass between two microseconds, the whole percents on the rest of its way.
pub fn percents_ahead(lamp: &Lamp, now: Moment) -> Vec<Moment> {
    let (level, goal) = (lamp.level_at(now), lamp.goal());
    let on_the_way = |place: &Level| (level < *place && *place <= goal) || (goal <= *place && *place < level);
    let first_moment_at = |place: Level| lamp.told.0 + lamp.from.0.abs_diff(place.0).div_ceil(u128::from(lamp.ramp));
    (0..=100).map(Level::of_percent).filter(on_the_way).map(|place| Moment(first_moment_at(place))).collect()
}

/// The script of a seed. Every fourth ends without LF, so that its last line is of another form.
pub fn script(seed: u64, lines: usize) -> Vec<u8> {
    let mut script = Script { hub: Hub::fresh(), random: Random(seed), text: Vec::new(), left: lines };
    while script.left > 21 {
        script.play();
    }
    script.settle();
    if seed % 4 == 0 {
        script.text.pop();
    }
    script.text
}

pub fn main() -> io::Result<()> {
    let words: Vec<u64> = std::env::args().skip(1).filter_map(|word| word.parse().ok()).collect();
    let [seed, lines] = words[..] else {
        eprintln!("usage: scripts SEED LINES");
        std::process::exit(2);
    };
    io::stdout().write_all(&script(seed, lines as usize))
}
