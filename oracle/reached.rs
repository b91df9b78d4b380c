//! What a script reaches, seen in the oracle's answers and histories while it runs the script: error numbers, replies, refusals, and the
//! moments, levels and texts that the generator aims at. A comparison that did not reach all of them shows less than it says.

use crate::scripts::hub::{read_code, script_lines, step, Connector, Ending, Hub, Lamp, Level, Moment, Note, Pair, Said, Sending};

const ERRORS: [u32; 20] = [1, 2, 3, 4, 5, 6, 7, 9, 10, 13, 14, 15, 17, 18, 20, 21, 22, 23, 28, 29];

/// One line of a script and what came of it.
pub struct Step<'a> {
    /// The script's line without its LF.
    line: &'a [u8],
    /// What stands behind its first space.
    request: &'a [u8],
    said: Vec<Said>,
    hub: &'a Hub,
    /// The transmission that the line started or renewed.
    started: Option<&'a Sending>,
    renewed: Option<&'a Sending>,
    /// The lamps as they were before the line.
    lamps_before: [Option<Lamp>; 3],
}

/// A lamp's exact levels about a moment: a microsecond before, then, and a microsecond after.
struct Course {
    rises: bool,
    before: Level,
    now: Level,
    after: Level,
    goal: Level,
}

impl Step<'_> {
    fn says(&self, start: &str, end: &str) -> bool {
        self.said.iter().any(|said| match said {
            Said::Reply { text, .. } => text.starts_with(start) && text.ends_with(end),
            _ => false,
        })
    }

    fn error(&self, number: u32) -> bool {
        self.says("ERR_", &format!(",{number:03}"))
    }

    fn refused(&self, number: u32) -> bool {
        matches!(self.said[..], [Said::Refusal(given)] if given == number)
    }

    /// The line is such a call, with these numbers.
    fn call(&self, letter: u8, numbers: &[u64]) -> bool {
        self.line.first() == Some(&letter) && self.numbers() == numbers
    }

    fn numbers(&self) -> Vec<u64> {
        self.request.split(|byte| *byte == b' ').map(|item| number(item).unwrap_or(u64::MAX)).collect()
    }

    fn field(&self, index: usize) -> &[u8] {
        field(self.request, index)
    }

    /// A sendir that has no fault.
    fn taken(&self) -> bool {
        self.started.is_some() || self.renewed.is_some() || self.says("busyIR", "")
    }

    fn completions(&self) -> Vec<(u128, &str)> {
        let completion = |said| match said {
            &Said::Completion { after, ref text, .. } => Some((after, text.as_str())),
            _ => None,
        };
        self.said.iter().filter_map(completion).collect()
    }

    /// A wait ended so many microseconds after a completion.
    fn waited_past_completion(&self, microseconds: u128) -> bool {
        let waited = self.numbers()[0];
        self.completions().iter().any(|(after, _)| after + microseconds == u128::from(waited))
    }

    /// A wait ended one microsecond before a completion.
    fn waited_to_before_completion(&self) -> bool {
        let due = |sending: &Sending| sending.completes().0 == self.hub.now.0 + 1;
        self.line.starts_with(b"w ") && !self.refused(103) && self.sendings().any(due)
    }

    fn sendings(&self) -> impl Iterator<Item = &Sending> {
        self.hub.connectors.iter().filter_map(|connector| connector.sending())
    }

    /// So many completions in one microsecond.
    fn completed_together(&self, number: usize) -> bool {
        let all = self.completions();
        all.iter().any(|(after, _)| all.iter().filter(|(other, _)| other == after).count() == number)
    }

    /// The asker sends to a transmission that its number once started and that is nobody's now.
    fn met_its_orphan(&self) -> bool {
        let asker = number(self.line.split(|byte| *byte == b' ').next().unwrap_or(b""));
        self.says("busyIR", "") && self.sendings().any(|sending| sending.owner().is_none() && Some(sending.starter) == asker)
    }

    /// The renewal came so many microseconds from the first whole one of a further copy; `exact` if the copy's boundary falls on that one.
    fn renewed_from_boundary(&self, microseconds: i128, exact: bool) -> bool {
        self.renewed.is_some_and(|sending| {
            sending.copies[1..].iter().any(|copy| {
                let first = sending.first_moment_at(copy.begins);
                let done = sending.done_at(first);
                first.0.checked_add_signed(microseconds) == Some(self.hub.now.0) && exact == (done.top == copy.begins.0 * done.bottom)
            })
        })
    }

    /// The renewal came in the copy in which the one before came.
    fn renewed_twice_in_a_copy(&self) -> bool {
        self.renewed.is_some_and(|sending| match sending.told[1..] {
            [.., (before, _), (now, _)] => sending.copies_finished(before) == sending.copies_finished(now),
            _ => false,
        })
    }

    /// The line that started the renewed transmission has something else in a field than this one.
    fn renewed_otherwise(&self, index: usize, meaning: fn(&[u8]) -> Option<u64>) -> bool {
        self.renewed.is_some_and(|sending| meaning(field(&sending.told[0].1, index)) != meaning(self.field(index)))
    }

    /// 260 pairs are read, and one more begins with a letter without a comma before it.
    fn one_letter_too_many(&self) -> bool {
        let (freq, code) = (number(self.field(3)).unwrap_or(0), self.field(6));
        let letter = code.last().is_some_and(u8::is_ascii_uppercase);
        self.error(20) && letter && read_code(&code[..code.len() - 1], freq).is_ok_and(|pairs| pairs.len() == 260)
    }

    /// The same line again at the very moment of completion: it starts anew.
    fn started_anew(&self) -> bool {
        self.hub.connectors.iter().any(|connector| match &connector.sendings[..] {
            [.., old, new] => {
                let ended_now = matches!(old.ended, Some((moment, Ending::Completed)) if moment == self.hub.now);
                self.started.is_some_and(|started| std::ptr::eq(started, new)) && ended_now && old.command == new.command
            }
            _ => false,
        })
    }

    /// Letters in the code of a started transmission, and how many pairs could have been one.
    fn letters(&self) -> Option<(u64, u64)> {
        Some((letters(self.field(6))?, recurring(&self.started?.command.pairs)))
    }

    fn started_pairs(&self) -> &[Pair] {
        self.started.map_or(&[], |sending| &sending.command.pairs)
    }

    /// A count of the started code is the smallest legal one, and above 4 because of 80 microseconds.
    fn has_smallest_count(&self) -> bool {
        self.started.is_some_and(|sending| {
            let freq = sending.command.freq;
            let smallest = |count: u64| count > 4 && 12_500 * count >= freq && 12_500 * (count - 1) < freq;
            sending.command.pairs.iter().any(|(on, off)| smallest(*on) || smallest(*off))
        })
    }

    // ---- Lamps

    /// The place among the connectors of the one that a line or a reading names.
    fn connector_index(&self) -> Option<usize> {
        let port = match self.line.first()? {
            b'r' => self.numbers()[0],
            _ => number(self.field(1).strip_prefix(b"1:")?)?,
        };
        (1..=3).contains(&port).then(|| port as usize - 1)
    }

    fn connector(&self) -> Option<&Connector> {
        Some(&self.hub.connectors[self.connector_index()?])
    }

    fn lamp(&self) -> Option<Lamp> {
        self.connector()?.lamp()
    }

    /// The lamp that a line or a reading names, as it was before.
    fn lamp_before(&self) -> Option<Lamp> {
        self.lamps_before[self.connector_index()?]
    }

    /// A request of that name to a lamp.
    fn to_a_lamp(&self, name: &str) -> bool {
        self.field(0) == name.as_bytes() && self.lamp_before().is_some()
    }

    /// A request of that name to a connector that is no lamp.
    fn to_no_lamp(&self, name: &str) -> bool {
        self.field(0) == name.as_bytes() && self.connector_index().is_some() && self.lamp_before().is_none()
    }

    fn is_under_way(&self, lamp: &Lamp) -> bool {
        lamp.level_at(self.hub.now) != lamp.goal()
    }

    /// A request of that name to a lamp that has not reached its target.
    fn to_a_lamp_under_way(&self, name: &str) -> bool {
        self.field(0) == name.as_bytes() && self.lamp_before().is_some_and(|lamp| self.is_under_way(&lamp))
    }

    fn some_lamp_is_under_way(&self) -> bool {
        self.hub.connectors.iter().filter_map(Connector::lamp).any(|lamp| self.is_under_way(&lamp))
    }

    /// The course of a lamp that was told to go somewhere by a ramp and whose level was asked for.
    fn course(&self) -> Option<Course> {
        let asked = self.says("LED_LIGHTING", "") && self.field(0) == b"get_LED_LIGHTING";
        let lamp = self.lamp_before().filter(|lamp| asked && lamp.ramp > 0 && lamp.from != lamp.goal())?;
        let (now, goal) = (self.hub.now.0, lamp.goal());
        let [before, now, after] = [now.saturating_sub(1).max(lamp.told.0), now, now + 1].map(|moment| lamp.level_at(Moment(moment)));
        Some(Course { rises: lamp.from < goal, before, now, after, goal })
    }

    /// A new target, set under way at no whole percent, for a lamp that rises or falls and then does the one or the other.
    fn set_under_way(&self, rose: bool, rises: bool) -> bool {
        let (Some(before), true) = (self.lamp_before(), self.says("LED_LIGHTING", "")) else {
            return false;
        };
        let level = before.level_at(self.hub.now);
        let now = self.lamp().filter(|lamp| lamp.ramp > 0 && lamp.goal() != level);
        let turned_so = now.is_some_and(|lamp| (before.from < before.goal(), level < lamp.goal()) == (rose, rises));
        self.to_a_lamp_under_way("set_LED_LIGHTING") && !is_whole(level) && turned_so
    }

    fn set_at_once_under_way(&self) -> bool {
        self.to_a_lamp_under_way("set_LED_LIGHTING") && self.says("LED_LIGHTING", "") && self.lamp().is_some_and(|lamp| lamp.ramp == 0)
    }

    /// 023 to a request of that name with something behind its so many fields, to a connector that is no lamp.
    fn surplus_refused_for_the_mode(&self, name: &str, fields_before: usize) -> bool {
        let surplus = self.request.split(|byte| *byte == b',').count() > fields_before;
        self.error(23) && self.to_no_lamp(name) && surplus
    }

    /// A lamp that was lit before its mode was left and entered again shows 0.
    fn forgot_its_level(&self) -> bool {
        let lit = |connector: &Connector| connector.diary.iter().any(|(_, note)| matches!(note, Note::LampSet(_)));
        self.says("LED_LIGHTING", ",0,0") && self.connector().is_some_and(lit)
    }
}

fn is_whole(level: Level) -> bool {
    level == Level::of_percent(level.shown())
}

/// Between two moments the level shown changed, and at neither was the exact one whole.
fn passed_a_percent(earlier: Level, later: Level) -> bool {
    earlier.shown() != later.shown() && !is_whole(earlier) && !is_whole(later)
}

fn number(text: &[u8]) -> Option<u64> {
    std::str::from_utf8(text).ok()?.parse().ok()
}

fn letters(code: &[u8]) -> Option<u64> {
    Some(code.iter().filter(|byte| byte.is_ascii_uppercase()).count() as u64)
}

/// A field of a sendir.
fn field(request: &[u8], index: usize) -> &[u8] {
    request.splitn(7, |byte| *byte == b',').nth(index).unwrap_or(b"")
}

/// How many pairs of a code occur when they have a letter already.
fn recurring(pairs: &[Pair]) -> u64 {
    let mut lettered: Vec<Pair> = Vec::new();
    let mut again = 0;
    for pair in pairs {
        if lettered.contains(pair) {
            again += 1;
        } else if lettered.len() < 15 {
            lettered.push(*pair);
        }
    }
    again
}

fn sixteen_twice(pairs: &[Pair]) -> bool {
    pairs.len() == 32 && pairs.iter().all(|pair| pairs.iter().filter(|other| *other == pair).count() == 2)
}

/// Something to be reached, and how it is seen.
pub struct Aim {
    name: String,
    met: Box<dyn Fn(&Step) -> bool + Send + Sync>,
}

fn aim(name: impl Into<String>, met: impl Fn(&Step) -> bool + Send + Sync + 'static) -> Aim {
    Aim { name: name.into(), met: Box::new(met) }
}

pub fn aims() -> Vec<Aim> {
    let mut all: Vec<Aim> = ERRORS.map(|number| aim(format!("error {number:03}"), move |step| step.error(number))).into();
    all.extend(replies());
    all.extend(refusals());
    all.extend(courses());
    all.extend(lamps());
    all.extend(lamp_limits());
    all.extend(moments());
    all.extend(texts());
    all.extend(limits());
    all
}

fn replies() -> Vec<Aim> {
    let shape = |name: &str, start: &'static str, end: &'static str| aim(name, move |step| step.says(start, end));
    vec![
        shape("reply: device list", "endlistdevices", ""),
        shape("reply: version", "LH-01", ""),
        shape("reply: mode IR", "IR,1:", ",IR"),
        shape("reply: mode SENSOR", "IR,1:", ",SENSOR"),
        shape("reply: mode IR_BLASTER", "IR,1:3", ",IR_BLASTER"),
        shape("reply: mode LED_LIGHTING", "IR,1:", ",LED_LIGHTING"),
        shape("reply: lamp at 0 with target 0", "LED_LIGHTING,1:", ",0,0"),
        shape("reply: lamp at 100 with target 100", "LED_LIGHTING,1:", ",100,100"),
        shape("reply: relay 0", "state,2:", ",0"),
        shape("reply: relay 1", "state,2:", ",1"),
        shape("reply: contact 0", "state,1:", ",0"),
        shape("reply: contact 1", "state,1:", ",1"),
        shape("reply: busyIR", "busyIR,1:", ""),
        aim("reply: stopir to the asker alone", |step| step.says("stopir", "") && step.said.len() == 1),
        aim("reply: stopir to the owner too", |step| step.says("stopir", "") && step.said.len() == 2),
        aim("reply: completeir with an owner", |step| step.said.iter().any(|said| matches!(said, Said::Completion { to: Some(_), .. }))),
        aim("reply: completeir without an owner", |step| step.said.iter().any(|said| matches!(said, Said::Completion { to: None, .. }))),
    ]
}

fn refusals() -> Vec<Aim> {
    vec![
        aim("!102 to a line", |step| step.refused(102) && step.line[0] != b'x'),
        aim("!102 to a closing", |step| step.refused(102) && step.line[0] == b'x'),
        aim("!103", |step| step.refused(103)),
        aim("!104 for the port", |step| step.refused(104) && !(1..=3).contains(&step.numbers()[0])),
        aim("!104 for the value", |step| step.refused(104) && step.numbers()[1] > 1),
        aim("!104 for the mode", |step| step.refused(104) && (1..=3).contains(&step.numbers()[0]) && step.numbers()[1] <= 1),
        aim("! for another form", |step| matches!(step.said[..], [Said::AnotherForm])),
    ]
}

/// Levels that were asked for, of lamps that rise and of lamps that fall.
fn courses() -> Vec<Aim> {
    let asked: [(&str, fn(&Course) -> bool); 10] = [
        ("under way", |course| course.before != course.now && course.now != course.after),
        ("at a whole percent", |course| is_whole(course.now) && course.now != course.after),
        ("1 us before a whole percent", |course| is_whole(course.after) && course.now != course.after && course.after != course.goal),
        ("1 us after a whole percent", |course| is_whole(course.before) && course.before != course.now),
        ("just after it passed a percent", |course| passed_a_percent(course.before, course.now)),
        ("just before it passed a percent", |course| passed_a_percent(course.now, course.after)),
        ("just when it reached its target", |course| course.before != course.now && course.now == course.goal),
        ("1 us before it reached its target", |course| course.now != course.after && course.after == course.goal),
        ("before any time passed", |course| course.before == course.now && course.now != course.after),
        ("at its target", |course| course.before == course.goal),
    ];
    let aim_of = |(name, met): (&str, fn(&Course) -> bool), rises: bool| {
        let direction = if rises { "rising" } else { "falling" };
        let met_so = move |course: Course| course.rises == rises && met(&course);
        aim(format!("{direction} lamp asked {name}"), move |step| step.course().is_some_and(met_so))
    };
    asked.into_iter().flat_map(|one| [aim_of(one, true), aim_of(one, false)]).collect()
}

/// What happens to lamps besides.
fn lamps() -> Vec<Aim> {
    let [set, get] = ["set_LED_LIGHTING", "get_LED_LIGHTING"];
    vec![
        aim("rising lamp turned at no whole percent", |step| step.set_under_way(true, false)),
        aim("falling lamp turned at no whole percent", |step| step.set_under_way(false, true)),
        aim("rising lamp set to rise on from no whole percent", |step| step.set_under_way(true, true)),
        aim("falling lamp set to fall on from no whole percent", |step| step.set_under_way(false, false)),
        aim("lamp under way set with ramp 0", |step| step.set_at_once_under_way()),
        aim("lamp under way given its mode again", |step| step.to_a_lamp_under_way("set_IR") && step.says("IR,", ",LED_LIGHTING")),
        aim("lamp under way given another mode", |step| step.to_a_lamp_under_way("set_IR") && step.lamp().is_none()),
        aim("lamp lit before another mode, now dark", |step| step.forgot_its_level()),
        aim("all three connectors lit", |step| step.hub.levels().iter().all(|level| *level > 0)),
        aim("closing with a lamp under way", |step| step.line.starts_with(b"x ") && step.said.is_empty() && step.some_lamp_is_under_way()),
        aim("!103 with a lamp under way", |step| step.refused(103) && step.some_lamp_is_under_way()),
        aim("!104 to a lamp", |step| step.refused(104) && step.numbers()[1] <= 1 && step.lamp_before().is_some()),
        aim("013 to a sendir to a lamp", |step| step.error(13) && step.to_a_lamp("sendir")),
        aim("013 to a stopir to a lamp", |step| step.error(13) && step.to_a_lamp("stopir")),
        aim("017 to a stopir to a lamp", |step| step.error(17) && step.to_a_lamp("stopir")),
        aim("018 to a getstate of a lamp", |step| step.error(18) && step.to_a_lamp("getstate")),
        aim("029 to LED_LIGHTING", |step| step.error(29) && step.field(2) == b"LED_LIGHTING"),
        aim("017 to a set_LED_LIGHTING of a lamp", move |step| step.error(17) && step.to_a_lamp(set)),
        aim("017 to a get_LED_LIGHTING of a lamp", move |step| step.error(17) && step.to_a_lamp(get)),
        aim("surplus gets 023 to a set_LED_LIGHTING of no lamp", move |step| step.surplus_refused_for_the_mode(set, 4)),
        aim("surplus gets 023 to a get_LED_LIGHTING of no lamp", move |step| step.surplus_refused_for_the_mode(get, 2)),
    ]
}

/// A lamp's target or ramp at its limit is taken, and over it or missing it gets 023.
fn lamp_limits() -> Vec<Aim> {
    let set_with = |name: &str, index: usize, value: Option<u64>, taken: bool| {
        let value_text = value.map_or("missing".to_string(), |value| value.to_string());
        let outcome = if taken { "taken" } else { "gets 023" };
        aim(format!("lamp's {name} {value_text} {outcome}"), move |step| {
            let answered = if taken { step.says("LED_LIGHTING", "") } else { step.error(23) };
            let given = step.field(index);
            step.to_a_lamp("set_LED_LIGHTING") && answered && value.map_or(given.is_empty(), |value| number(given) == Some(value))
        })
    };
    vec![
        set_with("target", 2, Some(0), false),
        set_with("target", 2, Some(1), true),
        set_with("target", 2, Some(100), true),
        set_with("target", 2, Some(101), false),
        set_with("target", 2, None, false),
        set_with("ramp", 3, Some(0), true),
        set_with("ramp", 3, Some(10), true),
        set_with("ramp", 3, Some(11), false),
        set_with("ramp", 3, None, false),
    ]
}

fn moments() -> Vec<Aim> {
    vec![
        aim("renewal", |step| step.renewed.is_some()),
        aim("renewal at a copy boundary", |step| step.renewed_from_boundary(0, true)),
        aim("renewal 1 us before a copy boundary", |step| step.renewed_from_boundary(-1, true)),
        aim("renewal 1 us after a copy boundary", |step| step.renewed_from_boundary(1, true)),
        aim("renewal just after an inexact boundary", |step| step.renewed_from_boundary(0, false)),
        aim("renewal just before an inexact boundary", |step| step.renewed_from_boundary(-1, false)),
        aim("renewal in the first copy", |step| step.renewed.is_some_and(|sending| sending.copies_finished(step.hub.now) == 0)),
        aim("two renewals in one copy", |step| step.renewed_twice_in_a_copy()),
        aim("renewal with repeat 1", |step| step.renewed.is_some_and(|sending| sending.command.repeat == 1)),
        aim("the same line at completion starts anew", |step| step.started_anew()),
        aim("wait ends at a completion", |step| step.waited_past_completion(0)),
        aim("wait ends 1 us before a completion", |step| step.waited_to_before_completion()),
        aim("wait ends 1 us after a completion", |step| step.waited_past_completion(1)),
        aim("two completions in one microsecond", |step| step.completed_together(2)),
        aim("three completions in one microsecond", |step| step.completed_together(3)),
        aim("completions against the order of ports", |step| step.completions().windows(2).any(|two| two[0].1[..14] > two[1].1[..14])),
        aim("an owner closed, its number back", |step| step.met_its_orphan()),
    ]
}

fn texts() -> Vec<Aim> {
    vec![
        aim("plain code", |step| step.letters().is_some_and(|(written, could)| written == 0 && could > 0)),
        aim("lettered code", |step| step.letters().is_some_and(|(written, could)| written == could && could > 0)),
        aim("mixed code", |step| step.letters().is_some_and(|(written, could)| 0 < written && written < could)),
        aim("renewal with other letters in the code", |step| step.renewed_otherwise(6, letters)),
        aim("renewal with another repeat above 20", |step| step.renewed_otherwise(4, number)),
        aim("260 pairs", |step| step.started_pairs().len() == 260),
        aim("261 pairs, the last begun by a digit", |step| step.error(20) && !step.field(6).iter().any(u8::is_ascii_uppercase)),
        aim("261 pairs, the last begun by a letter", |step| step.one_letter_too_many()),
        aim("sixteen distinct pairs, each twice", |step| sixteen_twice(step.started_pairs())),
        aim("accepted line of 3,688 bytes", |step| step.started.is_some() && step.request.len() == 3_688),
        aim("line of 4,096 bytes", |step| step.request.len() == 4_096 && !step.said.is_empty() && !step.error(15)),
        aim("line of 4,097 bytes", |step| step.request.len() == 4_097 && step.error(15)),
    ]
}

/// A field of a sendir at its limit is taken, and over it gets its number.
fn limits() -> Vec<Aim> {
    let taken = |name: &str, index: usize, value: u64| {
        aim(format!("{name} {value} taken"), move |step| step.taken() && number(step.field(index)) == Some(value))
    };
    let faulty = |name: &str, index: usize, value: u64, error: u32| {
        aim(format!("{name} {value} gets {error:03}"), move |step| step.error(error) && number(step.field(index)) == Some(value))
    };
    vec![
        taken("id", 2, 65_535),
        faulty("id", 2, 65_536, 4),
        taken("freq", 3, 15_000),
        faulty("freq", 3, 14_999, 5),
        taken("freq", 3, 500_000),
        faulty("freq", 3, 500_001, 5),
        faulty("repeat", 4, 0, 6),
        taken("repeat", 4, 21),
        taken("repeat", 4, 999_999),
        faulty("repeat", 4, 1_000_000, 6),
        faulty("offset", 5, 2, 7),
        faulty("offset", 5, 3, 7),
        taken("offset", 5, 383),
        faulty("offset", 5, 385, 7),
        aim("smallest count by 80 us", |step| step.has_smallest_count()),
        aim("count 50000", |step| step.started_pairs().iter().any(|(on, off)| *on == 50_000 || *off == 50_000)),
        aim("count 50001 gets 009", |step| step.error(9) && step.field(6).split(|byte| *byte == b',').any(|count| count == b"50001")),
        aim("wait of 1,000,000,000", |step| step.call(b'w', &[1_000_000_000]) && !step.refused(103)),
        aim("wait of 1,000,000,001", |step| step.call(b'w', &[1_000_000_001]) && step.refused(103)),
        aim("connection 7", |step| step.said.iter().any(|said| matches!(said, Said::Reply { to: 7, .. }))),
        aim("connection 8", |step| step.refused(102) && step.line.starts_with(b"8 ")),
    ]
}

/// How often each aim was met, and which bytes were sent.
#[derive(Clone)]
pub struct Tally {
    counts: Vec<u64>,
    bytes: [u64; 256],
    lines: u64,
}

impl Tally {
    pub fn empty(aims: &[Aim]) -> Tally {
        Tally { counts: vec![0; aims.len()], bytes: [0; 256], lines: 0 }
    }

    /// Runs a script through the oracle and counts.
    pub fn watch(&mut self, aims: &[Aim], script: &[u8]) {
        let mut hub = Hub::fresh();
        script_lines(script).for_each(|line| self.watch_line(aims, &mut hub, line));
    }

    fn watch_line(&mut self, aims: &[Aim], hub: &mut Hub, line: &[u8]) {
        self.lines += 1;
        let ages = |hub: &Hub| [0, 1, 2].map(|index| age(&hub.connectors[index].sendings));
        let before = ages(hub);
        let lamps_before = [0, 1, 2].map(|index| hub.connectors[index].lamp());
        let said = step(hub, line);
        let after = ages(hub);
        let moved = |by: fn((usize, usize), (usize, usize)) -> bool| {
            let index = (0..3).find(|index| by(before[*index], after[*index]))?;
            hub.connectors[index].sendings.last()
        };
        let ended_request = line.splitn(2, |byte| *byte == b' ').nth(1).unwrap_or(b"");
        ended_request.iter().for_each(|byte| self.bytes[usize::from(*byte)] += 1);
        let [line, request] = [line, ended_request].map(|text| text.strip_suffix(b"\n").unwrap_or(text));
        let started = moved(|before, after| after.0 > before.0);
        let renewed = moved(|before, after| after.0 == before.0 && after.1 > before.1);
        let step = Step { line, request, said, hub, started, renewed, lamps_before };
        for (count, aim) in self.counts.iter_mut().zip(aims) {
            *count += u64::from((aim.met)(&step));
        }
    }

    pub fn add(&mut self, other: &Tally) {
        self.lines += other.lines;
        self.counts.iter_mut().zip(&other.counts).for_each(|(count, more)| *count += more);
        self.bytes.iter_mut().zip(&other.bytes).for_each(|(count, more)| *count += more);
    }

    /// The table of what was reached, and whether all of it was.
    pub fn table(&self, aims: &[Aim]) -> (String, bool) {
        let sent = self.bytes.iter().filter(|count| **count > 0).count();
        let mut rows: Vec<String> = aims.iter().zip(&self.counts).map(|(aim, count)| format!("{count:>9}  {}\n", aim.name)).collect();
        rows.push(format!("{sent:>9}  byte values sent, of 256\n"));
        rows.push(format!("{:>9}  lines in all\n", self.lines));
        (rows.concat(), sent == 256 && self.counts.iter().all(|count| *count > 0))
    }
}

/// How many transmissions a connector had, and how many lines the last of them was told.
fn age(sendings: &[Sending]) -> (usize, usize) {
    (sendings.len(), sendings.last().map_or(0, |sending| sending.told.len()))
}
