// The schedule file and the report of document 01, with the columns of request 2026-01, the number of
// recoveries of request 2026-03, what is sent again of request 2026-05 and the depths of request 2026-06:
// reading a file into lists of steps, finding the column of a fault, running the steps with a watch on
// safety, on what is sent and on depths, and writing the report as text.

use crate::rules::{Error, Estimate, Group, Message, Outcome, Step, Stored, Told, GREATEST_DEPTH, GREATEST_GROUP, MOST_RECOVERIES};
use std::collections::{BTreeMap, BTreeSet};
use std::fmt::Write;

pub const MOST_BYTES: usize = 65_535;
pub const MOST_STEPS: u64 = 4_096;

#[derive(Clone, PartialEq, Eq, Debug)]
pub struct Schedule {
    pub values: Vec<u32>,
    pub warmup: Vec<Step>,
    pub measured: Vec<Step>,
}

/// What is asked for at a place of the file.
#[derive(Clone, Copy, PartialEq, Eq, Debug)]
enum Form {
    Section(&'static str),
    Value,
    Step,
    Nothing,
}

/// The first fault of a file, as the reader meets it: the refusal's number, the line and what was asked
/// for there. Its column is looked for afterwards.
#[derive(Clone, Copy, PartialEq, Eq, Debug)]
pub struct Fault {
    pub number: u32,
    pub line: usize,
    asked: Form,
}

impl Schedule {
    pub fn text(&self) -> String {
        let mut text = format!("VALUES {}\n", self.values.len());
        for value in &self.values {
            let _ = writeln!(text, "{}", value);
        }
        for (word, steps) in [("WARMUP", &self.warmup), ("MEASURED", &self.measured)] {
            let _ = writeln!(text, "{} {}", word, steps.len());
            for step in steps {
                let _ = writeln!(text, "{}", step);
            }
        }
        text
    }
}

/// A decimal of at most 4,294,967,295 without leading zeros.
fn decimal(word: &str) -> Option<u32> {
    let all_digits = !word.is_empty() && word.chars().all(|c| c.is_ascii_digit());
    let leading_zero = word.len() > 1 && word.starts_with('0');
    if all_digits && !leading_zero {
        word.parse::<u32>().ok()
    } else {
        None
    }
}

/// The lines of a file, one after the other; each word stands behind exactly one space.
struct Lines<'a> {
    ended: Vec<&'a [u8]>,
    rest: &'a [u8],
    taken: usize,
    asked: Form,
}

impl<'a> Lines<'a> {
    fn new(bytes: &'a [u8]) -> Lines<'a> {
        let mut ended: Vec<&[u8]> = bytes.split(|b| *b == b'\n').collect();
        let rest = ended.pop().unwrap_or(&[]);
        Lines { ended, rest, taken: 0, asked: Form::Nothing }
    }

    fn bad(&self, number: u32) -> Fault {
        Fault { number, line: self.taken, asked: self.asked }
    }

    /// The words of the next line; refusal 9 where it is missing, has no LF or is no text.
    fn next(&mut self, asked: Form) -> Result<Vec<&'a str>, Fault> {
        self.asked = asked;
        self.taken += 1;
        let line = self.ended.get(self.taken - 1).ok_or(self.bad(9))?;
        let line = std::str::from_utf8(line).map_err(|_| self.bad(9))?;
        Ok(line.split(' ').collect())
    }

    fn section(&mut self, word: &'static str) -> Result<u32, Fault> {
        match self.next(Form::Section(word))?[..] {
            [found, count] if found == word => decimal(count).ok_or(self.bad(9)),
            _ => Err(self.bad(9)),
        }
    }

    fn value(&mut self) -> Result<u32, Fault> {
        match self.next(Form::Value)?[..] {
            [word] => decimal(word).ok_or(self.bad(9)),
            _ => Err(self.bad(9)),
        }
    }

    fn steps(&mut self, count: u32) -> Result<Vec<Step>, Fault> {
        (0..count).map(|_| self.next(Form::Step).and_then(|words| step(&words).ok_or(self.bad(9)))).collect()
    }

    fn end(&mut self) -> Result<(), Fault> {
        let nothing_left = self.taken == self.ended.len() && self.rest.is_empty();
        self.asked = Form::Nothing;
        self.taken += 1;
        if nothing_left { Ok(()) } else { Err(self.bad(9)) }
    }
}

fn step(words: &[&str]) -> Option<Step> {
    let (letter, rest) = words.split_first()?;
    let (numbers, cut) = match rest {
        [numbers @ .., "X"] => (numbers, true),
        numbers => (numbers, false),
    };
    let numbers: Vec<u32> = numbers.iter().map(|word| decimal(word)).collect::<Option<_>>()?;
    match (*letter, &numbers[..], cut) {
        ("E", &[to, from, round], _) => Some(Step::Deliver { to, message: Message::E { round, from }, cut }),
        ("S", &[to, from, round], _) => Some(Step::Deliver { to, message: Message::S { round, from }, cut }),
        ("F", &[to, from, round], _) => Some(Step::Deliver { to, message: Message::F { round, from }, cut }),
        ("Z", &[to, from], _) => Some(Step::Deliver { to, message: Message::Decision { from }, cut }),
        ("Q", &[who], _) => Some(Step::Suspect { who, cut }),
        ("P", &[who], false) => Some(Step::Pause { who }),
        ("C", &[who], false) => Some(Step::Crash { who }),
        ("R", &[who], false) => Some(Step::Recover { who }),
        _ => None,
    }
}

pub fn read(bytes: &[u8]) -> Result<Schedule, Fault> {
    if bytes.len() > MOST_BYTES {
        return Err(Fault { number: 10, line: 0, asked: Form::Nothing });
    }
    let mut lines = Lines::new(bytes);
    let count = lines.section("VALUES")?;
    if !(1..=GREATEST_GROUP).contains(&count) {
        return Err(lines.bad(1));
    }
    let values = (0..count).map(|_| lines.value()).collect::<Result<Vec<u32>, Fault>>()?;
    let first = lines.section("WARMUP")?;
    if u64::from(first) > MOST_STEPS {
        return Err(lines.bad(10));
    }
    let warmup = lines.steps(first)?;
    let second = lines.section("MEASURED")?;
    if u64::from(first) + u64::from(second) > MOST_STEPS {
        return Err(lines.bad(10));
    }
    let measured = lines.steps(second)?;
    lines.end()?;
    Ok(Schedule { values, warmup, measured })
}

/// Whether the bytes are one whole line of the form: the reader above takes them as a file of that line alone.
fn keeps(form: Form, line: &[u8]) -> bool {
    let mut lines = Lines::new(line);
    let taken = match form {
        Form::Section(word) => lines.section(word).is_ok(),
        Form::Value => lines.value().is_ok(),
        Form::Step => lines.steps(1).is_ok(),
        Form::Nothing => false,
    };
    taken && lines.end().is_ok()
}

/// Lines of the form, one for each word or letter, with 0 for every number and a cut wherever one may be.
fn samples(form: Form) -> Vec<String> {
    match form {
        Form::Section(word) => vec![format!("{} 0\n", word)],
        Form::Value => vec!["0\n".to_string()],
        Form::Step => {
            ["E 0 0 0 X", "S 0 0 0 X", "F 0 0 0 X", "Z 0 0 X", "Q 0 X", "P 0", "C 0", "R 0"].map(|step| format!("{}\n", step)).to_vec()
        }
        Form::Nothing => Vec::new(),
    }
}

/// Whether some line of the form begins with these bytes: whether they and a tail of a sample are one.
///
/// The tails are enough. Let a line of the form be broken in two, and look at the sample with its word or
/// letter. Broken inside a number, the first part ends in a number already: the first digits of a number
/// are one of their own, which is no larger and has no leading zero either. The tail behind that number in
/// the sample completes it. Broken just ahead of a number, the tail that begins with the 0 in its place
/// does. Broken elsewhere, what follows in the sample is what follows in the line, but for a cut that the
/// line may not have; and where a line may end, it may end in a cut if the sample does.
fn begins(form: Form, bytes: &[u8]) -> bool {
    samples(form).iter().any(|sample| (0..=sample.len()).any(|from| keeps(form, &[bytes, &sample.as_bytes()[from..]].concat())))
}

impl Fault {
    /// The bytes of the faulty line, its LF included if it has one; none where it is missing.
    fn line_of<'a>(&self, bytes: &'a [u8]) -> &'a [u8] {
        bytes.split_inclusive(|b| *b == b'\n').nth(self.line.wrapping_sub(1)).unwrap_or(&[])
    }

    /// The column: for 1 and 10 the first digit of the count, and 0 where the file is too long; for 9 one
    /// more than the length of the longest beginning of the line that begins some line of the form. What is
    /// shorter than a beginning is one too, so that the search ends at the first that is none.
    pub fn column(&self, bytes: &[u8]) -> usize {
        let line = self.line_of(bytes);
        match self.number {
            9 => (0..=line.len()).take_while(|length| begins(self.asked, &line[..*length])).last().unwrap_or(0) + 1,
            _ => line.iter().position(|b| b.is_ascii_digit()).map_or(0, |place| place + 1),
        }
    }

    /// The number that ends with the byte of this column: its column, and whether it is too large.
    fn number_there(line: &[u8], column: usize) -> Option<(usize, bool)> {
        let digits = line.get(..column)?.iter().rev().take_while(|b| b.is_ascii_digit()).count();
        let number = std::str::from_utf8(&line[column - digits..column]).ok()?;
        (digits > 1).then(|| (column - digits + 1, number.parse::<u32>().is_err()))
    }

    /// Where the fault is, in words.
    fn place(&self, bytes: &[u8]) -> &'static str {
        let (line, column) = (self.line_of(bytes), self.column(bytes));
        match (self.number, self.asked, column) {
            (_, _, 0) => "too long",
            (1 | 10, _, _) => "at a count",
            (_, Form::Nothing, _) => "after the last step",
            _ if line.is_empty() => "missing line",
            _ if column > line.len() => "where the file ends",
            _ if line[column - 1] == b'\n' => "at the LF",
            _ => match Fault::number_there(line, column) {
                Some((_, true)) => "number too large",
                Some((_, false)) => "leading zero",
                None if column == 1 => "at the first byte",
                None => "at another byte",
            },
        }
    }

    /// The column as it is printed: another one where an error about columns is switched on.
    fn printed_column(&self, bytes: &[u8], error: Option<Error>) -> usize {
        let column = self.column(bytes);
        match (error, self.place(bytes)) {
            (Some(Error::ColumnOneTooSmall), _) => column.saturating_sub(1),
            (Some(Error::ColumnOfTheNumber), "number too large") => {
                Fault::number_there(self.line_of(bytes), column).map_or(column, |(first, _)| first)
            }
            (Some(Error::Column0ForAMissingLine), "missing line") => 0,
            (Some(Error::CountAtTheLine), "at a count") => 1,
            (Some(Error::EndAtTheLastByte), "where the file ends") => column - 1,
            _ => column,
        }
    }
}

/// The watch on safety, on what is sent and on depths: what must hold in every run, whatever the rules
/// above do.
struct Watch {
    first_values: BTreeSet<u32>,
    decided: Option<u32>,
    last_stored: BTreeMap<u32, Stored>,
    seen: BTreeMap<Message, (Estimate, u32)>,
    /// Who took an E yet.
    heard_an_e: BTreeSet<u32>,
    /// So far no suspicion, no cut, and whoever took an E took process 1's first.
    all_at_two: bool,
    complaints: Vec<String>,
}

impl Watch {
    fn new(schedule: &Schedule, group: &Group) -> Watch {
        Watch {
            first_values: schedule.values.iter().copied().collect(),
            decided: None,
            last_stored: (1..=group.n).map(|p| (p, group.record(p).clone())).collect(),
            seen: group.store.iter().map(|(message, carried)| (*message, (*carried, group.depth_of(*message)))).collect(),
            heard_an_e: BTreeSet::new(),
            all_at_two: group.n >= 2,
            complaints: Vec::new(),
        }
    }

    fn after(&mut self, place: usize, step: &Step, told: &Told, group: &Group) {
        if told.outcome != Outcome::Applied {
            return;
        }
        let who = step.who();
        let record = group.record(who);
        let before = &self.last_stored[&who];
        let mut complain = |what: String| self.complaints.push(format!("step {} ({}): {}", place, step, what));
        // The record last stored, with the one recovery that a recover itself adds.
        let added = u32::from(matches!(step, Step::Recover { .. }));
        let due = Stored { recoveries: before.recoveries + added, ..before.clone() };
        let whole = matches!(step, Step::Recover { .. } | Step::Pause { .. } | Step::Crash { .. });
        if whole && *record != due || record.recoveries != due.recoveries {
            complain(format!("process {} has not the record that it last stored", who));
        }
        if record.recoveries > MOST_RECOVERIES {
            complain(format!("process {} has {} recoveries", who, record.recoveries));
        }
        if before.decision.is_some() && record.decision != before.decision {
            complain(format!("process {} changed its decision", who));
        }
        if let Some(value) = record.decision {
            if !self.first_values.contains(&value) {
                complain(format!("validity: process {} decided {}, which is no first value", who, value));
            }
            match self.decided {
                Some(other) if other != value => {
                    complain(format!("agreement: process {} decided {}, another decided {}", who, value, other))
                }
                _ => self.decided = Some(value),
            }
        }
        // The depths: what a step may add, what it must keep, and the depth of 2 of a good run.
        let idle_but_for_the_cut = told.parts.first() == Some(&"idle");
        let depth_due = match *step {
            Step::Deliver { message, .. } if !idle_but_for_the_cut => before.depth.max(group.depth_of(message) + 1),
            _ => before.depth,
        };
        if record.depth != depth_due {
            complain(format!("process {} has depth {} and not {}", who, record.depth, depth_due));
        }
        if before.decision.is_some() && record.depth != before.depth {
            complain(format!("process {} changed the depth of its decision", who));
        }
        if record.depth > GREATEST_DEPTH + 1 {
            complain(format!("process {} has depth {}", who, record.depth));
        }
        self.all_at_two &= !step.is_cut() && !matches!(step, Step::Suspect { .. });
        if let Step::Deliver { message: Message::E { from, .. }, .. } = *step {
            if !idle_but_for_the_cut && self.heard_an_e.insert(who) {
                self.all_at_two &= from == 1;
            }
            if self.all_at_two && told.decided && record.depth != 2 {
                complain(format!("process {} decided at depth {} in a run where all decide at 2", who, record.depth));
            }
        }
        // What is handed over: one message at most, counted once and, if it was out before, once more. Then it
        // is an E, and its entry stays as it was.
        if told.handed_over.len() > 1 {
            complain(format!("{} messages are handed over", told.handed_over.len()));
        }
        let repeats = told.handed_over.iter().filter(|(message, _)| self.seen.contains_key(message)).count() as u64;
        if (told.sent, told.again) != (told.handed_over.len() as u64, repeats) {
            complain(format!("sent {} and again {} for {} messages, {} of them out before", told.sent, told.again, told.handed_over.len(), repeats));
        }
        for (message, carried) in &told.handed_over {
            let depth = group.depth_of(*message);
            if self.seen.contains_key(message) && !matches!(message, Message::E { .. }) {
                complain(format!("{:?} was handed over again and is no E", message));
            }
            if group.store.get(message) != Some(carried) {
                complain(format!("{:?} has another entry than it carries", message));
            }
            match self.seen.insert(*message, (*carried, depth)) {
                None if depth != record.depth => {
                    complain(format!("{:?} has depth {}, and its sender {}", message, depth, record.depth))
                }
                Some((other, _)) if other != *carried => {
                    complain(format!("{:?} was handed over again with another content", message))
                }
                Some((_, other)) if other != depth => {
                    complain(format!("{:?} was handed over again with another depth", message))
                }
                _ => {}
            }
            if depth > GREATEST_DEPTH {
                complain(format!("{:?} has depth {}", message, depth));
            }
            let covered = match *message {
                Message::E { round, .. } => record.round >= round,
                Message::S { round, .. } => record.round > round || record.round == round && record.marked,
                Message::F { round, .. } => record.round > round || record.round == round && record.phase == 2,
                Message::Decision { .. } => record.decision.is_some(),
            };
            if !covered {
                complain(format!("{:?} is out, and the stored record of its sender knows nothing of it", message));
            }
        }
        self.last_stored.insert(who, record.clone());
    }

    /// 1 and all that was sent are the sent entries and all that was sent again.
    fn at_the_end(&mut self, sent: u64, again: u64, group: &Group) {
        let entries = group.store.len() as u64;
        if 1 + sent != entries + again {
            self.complaints.push(format!("1 + sent {} are not {} entries + again {}", sent, entries, again));
        }
        if group.store.iter().any(|(message, carried)| self.seen.get(message).is_none_or(|(seen, _)| seen != carried)) {
            self.complaints.push("an entry is not what was handed over".to_string());
        }
    }
}

/// Where faults can be.
const PLACES: [&str; 10] = [
    "at the first byte", "at another byte", "leading zero", "number too large", "at the LF", "where the file ends", "missing line",
    "after the last step", "at a count", "too long",
];

/// What was counted over the files answered.
#[derive(Default)]
pub struct Statistic {
    pub files: u64,
    pub counts: BTreeMap<String, u64>,
    pub highest_round: u32,
    pub greatest_depth: u32,
}

impl Statistic {
    pub fn add(&mut self, name: &str, by: u64) {
        *self.counts.entry(name.to_string()).or_insert(0) += by;
    }

    pub fn get(&self, name: &str) -> u64 {
        self.counts.get(name).copied().unwrap_or(0)
    }

    pub fn text(&self) -> String {
        let list = |names: &[(&str, &str)]| {
            names.iter().map(|(label, name)| format!("{} {}", label, self.get(name))).collect::<Vec<_>>().join(", ")
        };
        format!(
            "files: {} in all; {}\nfaults: {}\nsteps: {}\nrefused steps by number: {} (11 cannot occur, nor 14 for a short store: the stores here are maps)\n\
             runs: {}, highest round {}, greatest depth of a decision {}\n",
            self.files,
            list(&[("sound", "sound"), ("faulty with 1:", "fault 1"), ("with 9:", "fault 9"), ("with 10:", "fault 10")]),
            list(&PLACES.map(|place| (place, place))),
            list(&[("applied", "applied"), ("idle", "idle"), ("refused", "refused"), ("cut and applied", "cut applied"),
                ("cut and idle but for the cut", "cut idle"), ("cut and refused", "cut refused"), ("jumps", "jumps")]),
            list(&[("2:", "refused 2"), ("3:", "refused 3"), ("4:", "refused 4"), ("5:", "refused 5"),
                ("6:", "refused 6"), ("7:", "refused 7"), ("8:", "refused 8"), ("13:", "refused 13"), ("14:", "refused 14")]),
            list(&[("decided processes", "decided"), ("runs with a decision", "deciding runs"),
                ("messages sent", "sent"), ("of them again", "again")]),
            self.highest_round,
            self.greatest_depth,
        )
    }
}

/// The answer to one file: its report, and what must not be.
pub struct Answer {
    pub report: String,
    pub complaints: Vec<String>,
    /// The names of all that the file hits, where they were asked for.
    pub hits: BTreeSet<String>,
}

/// A name for what a step hit, for tables and file names.
fn hits_of(step: &Step, told: &Told, hits: &mut BTreeSet<String>) {
    let letter = step.letter();
    let cut = if step.is_cut() { "cut_" } else { "" };
    match &told.outcome {
        Outcome::Refused(number, cause) => {
            hits.insert(format!("refused_{}_{}{}_{}", number, cut, letter, cause));
        }
        Outcome::Idle(reason) => {
            hits.insert(format!("idle_{}_{}", letter, reason));
        }
        Outcome::Applied if told.parts.first() == Some(&"idle") => {
            hits.insert(format!("cut_idle_{}_{}", letter, told.parts[1]));
        }
        Outcome::Applied => {
            for part in &told.parts {
                hits.insert(format!("{}{}", if step.is_cut() { "cut_" } else { "step_" }, part));
            }
        }
    }
}

pub fn answer(bytes: &[u8], error: Option<Error>, statistic: &mut Statistic, want_hits: bool) -> Answer {
    statistic.files += 1;
    let mut hits = BTreeSet::new();
    let schedule = match read(bytes) {
        Ok(schedule) => schedule,
        Err(fault) => {
            let place = fault.place(bytes);
            statistic.add(&format!("fault {}", fault.number), 1);
            statistic.add(place, 1);
            hits.insert(format!("bad_{}_{}", fault.number, place.replace(' ', "_")));
            let report = format!("BAD {} {} {}\n", fault.number, fault.line, fault.printed_column(bytes, error));
            return Answer { report, complaints: Vec::new(), hits };
        }
    };
    let mut group = Group::start(&schedule.values, error).expect("the reader lets 1 to 16 values pass");
    let mut watch = Watch::new(&schedule, &group);
    let mut report = String::new();
    let mut place = 0;
    let (mut all_sent, mut all_again, mut all_decided) = (0, 0, 0);
    for (word, steps) in [("WARMUP", &schedule.warmup), ("MEASURED", &schedule.measured)] {
        let (mut applied, mut idle, mut sent, mut again, mut decided) = (0, 0, 0, 0, 0);
        let mut refused: BTreeMap<u32, u64> = BTreeMap::new();
        let (mut cut_applied, mut cut_idle, mut cut_refused, mut jumps) = (0, 0, 0, 0);
        for step in steps {
            place += 1;
            if want_hits {
                hits.extend(group.stands_ahead_of(step));
            }
            let told = group.step(step);
            watch.after(place, step, &told, &group);
            if want_hits {
                hits_of(step, &told, &mut hits);
            }
            sent += told.sent;
            again += told.again;
            decided += u64::from(told.decided);
            match told.outcome {
                Outcome::Applied => {
                    applied += 1;
                    if step.is_cut() {
                        cut_applied += 1;
                        cut_idle += u64::from(told.parts.first() == Some(&"idle"));
                    }
                    jumps += u64::from(matches!(told.parts.first(), Some(&"E_jumps") | Some(&"F_jumps")));
                }
                Outcome::Idle(_) => idle += 1,
                Outcome::Refused(number, _) => {
                    *refused.entry(number).or_insert(0) += 1;
                    cut_refused += u64::from(step.is_cut());
                }
            }
        }
        let all_refused: u64 = refused.values().sum();
        let _ = writeln!(
            report,
            "{} {} applied {} idle {} refused {} sent {} again {} decided {}",
            word, steps.len(), applied, idle, all_refused, sent, again, decided
        );
        for (name, by) in [
            ("applied", applied), ("idle", idle), ("refused", all_refused), ("sent", sent), ("again", again),
            ("decided", decided), ("cut applied", cut_applied), ("cut idle", cut_idle), ("cut refused", cut_refused), ("jumps", jumps),
        ] {
            statistic.add(name, by);
        }
        for (number, by) in refused {
            statistic.add(&format!("refused {}", number), by);
        }
        all_sent += sent;
        all_again += again;
        all_decided += decided;
    }
    watch.at_the_end(all_sent, all_again, &group);
    statistic.add("sound", 1);
    statistic.add("deciding runs", u64::from(all_decided > 0));
    let _ = writeln!(report, "PROCESSES {}", group.n);
    for who in 1..=group.n {
        let record = group.record(who);
        statistic.highest_round = statistic.highest_round.max(record.round);
        if record.decision.is_some() {
            statistic.greatest_depth = statistic.greatest_depth.max(record.depth);
        }
        let shows_depth = record.decision.is_some() || error == Some(Error::DepthOfTheUndecided);
        let _ = writeln!(
            report,
            "{} {} {} {} {} {} {} {} {}",
            who,
            if group.is_up(who) { "up" } else { "down" },
            record.round,
            record.phase,
            record.estimate.proposer,
            record.estimate.value,
            record.decision.map_or("-".to_string(), |value| value.to_string()),
            record.recoveries,
            if shows_depth { record.depth.to_string() } else { "-".to_string() }
        );
    }
    Answer { report, complaints: watch.complaints, hits }
}
