// The rules of document 01 and of requests 2026-03, 2026-05 and 2026-06, written from their words alone:
// what a group does with one step. Records, tallies and the two stores, of messages and of their depths,
// are plain maps and sets. Nothing here knows of files. A process has a disk with its stored record
// and, unless it crashed, a memory with its tallies.

use std::collections::{BTreeMap, BTreeSet};
use std::fmt;

pub const GREATEST_GROUP: u32 = 16;
pub const LAST_ROUND: u32 = 63;
pub const MOST_RECOVERIES: u32 = 255;
/// A message's depth is at most this, and a process's at most one more.
pub const GREATEST_DEPTH: u32 = 3_087;

pub fn majority(n: u32) -> usize {
    (n / 2 + 1) as usize
}

pub fn coordinator(round: u32, n: u32) -> u32 {
    round % n + 1
}

/// Document 01's "errors that look right", two about the number of recoveries, five about depths, five
/// about what is sent again and five about the columns of faulty files: one of them can be switched on.
#[derive(Clone, Copy, PartialEq, Eq, Debug)]
pub enum Error {
    CountsReceptions,
    BackInPhase1,
    HandsOverBeforeStoring,
    FAfterAdopting,
    PauseEmptiesTallies,
    RecoveryNotCountedAfterAPause,
    RecoveriesLostAtACrash,
    DepthBeforeTheStep,
    RepeatsDeepen,
    CutLosesDepth,
    IdleDeepens,
    DepthOfTheUndecided,
    AgainNotCounted,
    CutCounts,
    FirstCountsAsAgain,
    AgainAfterWriting,
    SentWithoutRepeats,
    ColumnOneTooSmall,
    ColumnOfTheNumber,
    Column0ForAMissingLine,
    CountAtTheLine,
    EndAtTheLastByte,
}

pub const ERRORS: [(&str, Error); 22] = [
    ("counts-receptions", Error::CountsReceptions),
    ("back-in-phase-1", Error::BackInPhase1),
    ("hands-over-before-storing", Error::HandsOverBeforeStoring),
    ("f-after-adopting", Error::FAfterAdopting),
    ("pause-empties-tallies", Error::PauseEmptiesTallies),
    ("recovery-not-counted-after-a-pause", Error::RecoveryNotCountedAfterAPause),
    ("recoveries-lost-at-a-crash", Error::RecoveriesLostAtACrash),
    ("depth-before-the-step", Error::DepthBeforeTheStep),
    ("repeats-deepen", Error::RepeatsDeepen),
    ("cut-loses-depth", Error::CutLosesDepth),
    ("idle-deepens", Error::IdleDeepens),
    ("depth-of-the-undecided", Error::DepthOfTheUndecided),
    ("again-not-counted", Error::AgainNotCounted),
    ("cut-counts", Error::CutCounts),
    ("first-counts-as-again", Error::FirstCountsAsAgain),
    ("again-after-writing", Error::AgainAfterWriting),
    ("sent-without-repeats", Error::SentWithoutRepeats),
    ("column-one-too-small", Error::ColumnOneTooSmall),
    ("column-of-the-number", Error::ColumnOfTheNumber),
    ("column-0-for-a-missing-line", Error::Column0ForAMissingLine),
    ("count-at-the-line", Error::CountAtTheLine),
    ("end-at-the-last-byte", Error::EndAtTheLastByte),
];

#[derive(Clone, Copy, PartialEq, Eq, Debug)]
pub struct Estimate {
    pub proposer: u32,
    pub value: u32,
}

/// Which message it is; what it carries stands in the store.
#[derive(Clone, Copy, PartialEq, Eq, PartialOrd, Ord, Debug)]
pub enum Message {
    E { round: u32, from: u32 },
    S { round: u32, from: u32 },
    F { round: u32, from: u32 },
    Decision { from: u32 },
}

impl Message {
    pub fn from(&self) -> u32 {
        match *self {
            Message::E { from, .. } | Message::S { from, .. } | Message::F { from, .. } | Message::Decision { from } => from,
        }
    }
    pub fn round(&self) -> Option<u32> {
        match *self {
            Message::E { round, .. } | Message::S { round, .. } | Message::F { round, .. } => Some(round),
            Message::Decision { .. } => None,
        }
    }
}

#[derive(Clone, Copy, PartialEq, Eq, Debug)]
pub enum Step {
    Deliver { to: u32, message: Message, cut: bool },
    Suspect { who: u32, cut: bool },
    Pause { who: u32 },
    Crash { who: u32 },
    Recover { who: u32 },
}

impl Step {
    pub fn who(&self) -> u32 {
        match *self {
            Step::Deliver { to, .. } => to,
            Step::Suspect { who, .. } | Step::Pause { who } | Step::Crash { who } | Step::Recover { who } => who,
        }
    }
    pub fn is_cut(&self) -> bool {
        matches!(*self, Step::Deliver { cut: true, .. } | Step::Suspect { cut: true, .. })
    }
    pub fn letter(&self) -> char {
        match self {
            Step::Deliver { message: Message::E { .. }, .. } => 'E',
            Step::Deliver { message: Message::S { .. }, .. } => 'S',
            Step::Deliver { message: Message::F { .. }, .. } => 'F',
            Step::Deliver { message: Message::Decision { .. }, .. } => 'Z',
            Step::Suspect { .. } => 'Q',
            Step::Pause { .. } => 'P',
            Step::Crash { .. } => 'C',
            Step::Recover { .. } => 'R',
        }
    }
}

impl fmt::Display for Step {
    fn fmt(&self, f: &mut fmt::Formatter) -> fmt::Result {
        write!(f, "{} {}", self.letter(), self.who())?;
        if let Step::Deliver { message, .. } = self {
            write!(f, " {}", message.from())?;
            if let Some(round) = message.round() {
                write!(f, " {}", round)?;
            }
        }
        if self.is_cut() {
            write!(f, " X")?;
        }
        Ok(())
    }
}

/// The stored record: what a crash leaves.
#[derive(Clone, PartialEq, Eq, Debug)]
pub struct Stored {
    pub first_value: u32,
    pub round: u32,
    pub phase: u32,
    pub estimate: Estimate,
    pub marked: bool,
    pub decision: Option<u32>,
    /// The number of recoveries.
    pub recoveries: u32,
    /// The communication steps that led to this record; once it is decided, to the decision.
    pub depth: u32,
}

impl Stored {
    /// One step of communication beyond a message of this depth, if that is more.
    fn deepen(&mut self, message_depth: u32) {
        self.depth = self.depth.max(message_depth + 1);
    }
}

/// The distinct senders heard. The number of receptions is kept for the error that counts them.
#[derive(Clone, Default, Debug)]
pub struct Tally {
    senders: BTreeSet<u32>,
    receptions: usize,
}

impl Tally {
    fn add(&mut self, sender: u32) {
        self.senders.insert(sender);
        self.receptions += 1;
    }
}

/// What a process that has not crashed works with.
#[derive(Clone, Debug)]
struct Memory {
    record: Stored,
    estimates: Tally,
    suspicions: Tally,
}

#[derive(Clone, PartialEq, Eq, Debug)]
pub enum Outcome {
    Applied,
    Idle(&'static str),
    Refused(u32, &'static str),
}

/// What one step gave: its outcome, the messages that it handed over, how many they are and how many
/// of them had been sent before, whether its process decided in it, and the parts of the rules that it
/// went through.
#[derive(Clone, Debug)]
pub struct Told {
    pub outcome: Outcome,
    pub handed_over: Vec<(Message, Estimate)>,
    pub sent: u64,
    pub again: u64,
    pub decided: bool,
    pub parts: Vec<&'static str>,
}

enum Effect {
    Idle(&'static str),
    Next(Memory, Vec<(Message, Estimate)>, Vec<&'static str>),
    Pause,
    Crash,
    Recover,
}

type Refusal = (u32, &'static str);

pub struct Group {
    pub n: u32,
    disk: BTreeMap<u32, Stored>,
    memory: BTreeMap<u32, Memory>,
    paused: BTreeSet<u32>,
    pub store: BTreeMap<Message, Estimate>,
    /// The second store: for each message that was handed over its depth when it first was.
    depths: BTreeMap<Message, u32>,
    kept_back: BTreeSet<Message>,
    error: Option<Error>,
}

impl Group {
    /// The start; refusal 1 where there are not 1 to 16 values. Here and in a step 11, and 14 for a
    /// short second store, cannot occur: the stores are maps.
    pub fn start(values: &[u32], error: Option<Error>) -> Result<Group, u32> {
        if values.is_empty() || values.len() > GREATEST_GROUP as usize {
            return Err(1);
        }
        let mut disk = BTreeMap::new();
        let mut memory = BTreeMap::new();
        for (i, &value) in (1..).zip(values) {
            let record = Stored {
                first_value: value,
                round: 0,
                phase: 1,
                estimate: Estimate { proposer: i, value },
                marked: false,
                decision: None,
                recoveries: 0,
                depth: 0,
            };
            disk.insert(i, record.clone());
            memory.insert(i, Memory { record, estimates: Tally::default(), suspicions: Tally::default() });
        }
        let first = Estimate { proposer: 1, value: values[0] };
        Ok(Group {
            n: values.len() as u32,
            disk,
            memory,
            paused: BTreeSet::new(),
            store: BTreeMap::from([(Message::E { round: 0, from: 1 }, first)]),
            depths: BTreeMap::from([(Message::E { round: 0, from: 1 }, 0)]),
            kept_back: BTreeSet::new(),
            error,
        })
    }

    pub fn is_up(&self, who: u32) -> bool {
        self.memory.contains_key(&who) && !self.paused.contains(&who)
    }

    /// The record as the process has it: in its memory, or on its disk after a crash.
    pub fn record(&self, who: u32) -> &Stored {
        match self.memory.get(&who) {
            Some(memory) => &memory.record,
            None => &self.disk[&who],
        }
    }

    /// The depth of a message in the second store, which has 0 where none was handed over.
    pub fn depth_of(&self, message: Message) -> u32 {
        self.depths.get(&message).copied().unwrap_or(0)
    }

    fn has_error(&self, error: Error) -> bool {
        self.error == Some(error)
    }

    fn heard(&self, tally: &Tally, sender: u32) -> bool {
        !self.has_error(Error::CountsReceptions) && tally.senders.contains(&sender)
    }

    fn at_majority(&self, tally: &Tally) -> bool {
        let size = if self.has_error(Error::CountsReceptions) { tally.receptions } else { tally.senders.len() };
        size >= majority(self.n)
    }

    /// Why a delivery of this message to this process would be idle, if it would be.
    pub fn why_idle(&self, to: u32, message: Message) -> Option<&'static str> {
        self.idle(self.memory.get(&to)?, message)
    }

    fn idle(&self, me: &Memory, message: Message) -> Option<&'static str> {
        let record = &me.record;
        if record.decision.is_some() {
            return Some("decided");
        }
        let round = message.round()?;
        if round < record.round {
            return Some("of_a_lower_round");
        }
        match message {
            Message::E { from, .. } if round == record.round => {
                if record.phase == 2 {
                    Some("in_phase_2")
                } else if self.heard(&me.estimates, from) {
                    Some("repeated")
                } else {
                    None
                }
            }
            Message::F { from, .. } if round == record.round => {
                (record.phase == 2 && self.heard(&me.estimates, from)).then_some("repeated")
            }
            Message::S { from, .. } => {
                if round != record.round {
                    Some("of_a_higher_round")
                } else if record.phase == 2 {
                    Some("in_phase_2")
                } else if self.heard(&me.suspicions, from) {
                    Some("repeated")
                } else {
                    None
                }
            }
            _ => None,
        }
    }

    /// Refusal 2: no start and no step makes a damaged group, so this never speaks. The number of
    /// recoveries is no case of it; a process's depth above 3,088 is.
    fn damaged(&self) -> bool {
        let in_group = |p: &u32| (1..=self.n).contains(p);
        !(1..=GREATEST_GROUP).contains(&self.n)
            || (1..=self.n).any(|p| {
                let record = self.record(p);
                record.round > LAST_ROUND
                    || !(1..=2).contains(&record.phase)
                    || !in_group(&record.estimate.proposer)
                    || record.depth > GREATEST_DEPTH + 1
                    || self.memory.get(&p).is_some_and(|m| {
                        !m.estimates.senders.iter().all(in_group) || !m.suspicions.senders.iter().all(in_group)
                    })
            })
    }

    /// The refusals in their order, and if there is none, what the step does.
    fn attempt(&self, step: &Step) -> Result<Effect, Refusal> {
        if self.damaged() {
            return Err((2, "damaged_group"));
        }
        let who = step.who();
        let in_group = |p: u32| (1..=self.n).contains(&p);
        if !in_group(who) {
            return Err((3, if who == 0 { "process_0" } else { "process_above_n" }));
        }
        if let Step::Deliver { message, .. } = step {
            if !in_group(message.from()) {
                return Err((3, if message.from() == 0 { "sender_0" } else { "sender_above_n" }));
            }
            if message.round().is_some_and(|round| round > LAST_ROUND) {
                return Err((4, "round_above_63"));
            }
        }
        if !self.is_up(who) && !matches!(step, Step::Recover { .. }) {
            return Err((5, if self.paused.contains(&who) { "paused" } else { "crashed" }));
        }
        match *step {
            Step::Deliver { message, .. } => {
                let carried = match self.store.get(&message) {
                    Some(carried) => *carried,
                    None if self.kept_back.contains(&message) => return Err((6, "kept_back_by_a_cut")),
                    None => return Err((6, "never_sent")),
                };
                if !in_group(carried.proposer) {
                    return Err((2, "damaged_entry"));
                }
                // This never speaks either: no run from a start makes a message so deep.
                if self.depth_of(message) > GREATEST_DEPTH {
                    return Err((14, "damaged_depth"));
                }
                self.deliver(who, message, carried)
            }
            Step::Suspect { .. } => self.suspect(who),
            Step::Pause { .. } => Ok(Effect::Pause),
            Step::Crash { .. } => Ok(Effect::Crash),
            Step::Recover { .. } if self.is_up(who) => Err((7, "already_up")),
            Step::Recover { .. } if self.record(who).recoveries >= MOST_RECOVERIES => {
                Err((13, if self.paused.contains(&who) { "paused" } else { "crashed" }))
            }
            Step::Recover { .. } => Ok(Effect::Recover),
        }
    }

    /// Which other refusals, or idleness, the one that is given stands ahead of.
    pub fn stands_ahead_of(&self, step: &Step) -> Vec<String> {
        let Err((first, _)) = self.attempt(step) else { return Vec::new() };
        let who = step.who();
        let mut names = Vec::new();
        if let Step::Deliver { to, message, .. } = *step {
            if message.round().is_some_and(|round| round > LAST_ROUND) && first < 4 {
                names.push("4".to_string());
            }
            if first == 5 && !self.store.contains_key(&message) {
                names.push("6".to_string());
            }
            if first == 5 && self.store.contains_key(&message) && self.why_idle(to, message).is_some() {
                names.push("idle".to_string());
            }
        }
        if (1..=self.n).contains(&who) {
            if first < 5 && !self.is_up(who) {
                names.push("5".to_string());
            }
            let record = self.record(who);
            let possible = record.decision.is_none() && record.phase == 1 && !record.marked;
            if first == 5 && matches!(step, Step::Suspect { .. }) && !possible {
                names.push("7".to_string());
            }
            if first == 7 && matches!(step, Step::Recover { .. }) && record.recoveries >= MOST_RECOVERIES {
                names.push("13".to_string());
            }
        }
        names.into_iter().map(|name| format!("refused_{}_ahead_of_{}", first, name)).collect()
    }

    fn suspect(&self, who: u32) -> Result<Effect, Refusal> {
        let mut me = self.memory[&who].clone();
        if me.record.decision.is_some() {
            return Err((7, "decided"));
        }
        if me.record.phase != 1 {
            return Err((7, "in_phase_2"));
        }
        if me.record.marked {
            return Err((7, "already_marked"));
        }
        me.record.marked = true;
        let message = Message::S { round: me.record.round, from: who };
        Ok(Effect::Next(me, vec![(message, Estimate { proposer: who, value: 0 })], vec!["suspects"]))
    }

    fn deliver(&self, who: u32, message: Message, carried: Estimate) -> Result<Effect, Refusal> {
        let mut me = self.memory[&who].clone();
        if let Some(reason) = self.idle(&me, message) {
            return Ok(Effect::Idle(reason));
        }
        me.record.deepen(self.depth_of(message));
        let mut out = Vec::new();
        let mut parts = Vec::new();
        let mut round = me.record.round;
        if let Some(higher) = message.round().filter(|r| *r > round) {
            parts.push(match message {
                Message::E { .. } => "E_jumps",
                _ => "F_jumps",
            });
            if higher > round + 1 {
                parts.push("jumps_over_rounds");
            }
            if me.record.phase == 2 {
                parts.push("jumps_out_of_phase_2");
            }
            round = higher;
            me.record.round = round;
            me.record.phase = 1;
            me.record.marked = false;
            me.record.estimate = carried;
            me.estimates = Tally::default();
            me.suspicions = Tally::default();
        }
        let chair = coordinator(round, self.n);
        match message {
            Message::E { from, .. } => {
                if me.estimates.senders.is_empty() && who != chair {
                    me.record.estimate = carried;
                    out.push((Message::E { round, from: who }, carried));
                    parts.push(if from == chair { "E_of_the_coordinator_relayed" } else { "E_of_another_relayed" });
                } else if me.estimates.senders.is_empty() {
                    parts.push("E_first_heard_by_the_coordinator");
                } else {
                    parts.push("E_joins");
                }
                me.estimates.add(from);
                if self.at_majority(&me.estimates) {
                    let value = me.record.estimate.value;
                    me.record.decision = Some(value);
                    out.push((Message::Decision { from: who }, Estimate { proposer: who, value }));
                    parts.push("E_decides");
                }
            }
            Message::S { from, .. } => {
                me.suspicions.add(from);
                parts.push("S_joins");
                if self.at_majority(&me.suspicions) {
                    me.record.phase = 2;
                    me.estimates = Tally::default();
                    out.push((Message::F { round, from: who }, me.record.estimate));
                    parts.push("S_to_phase_2");
                }
            }
            Message::F { from, .. } => {
                let to_phase_2 = me.record.phase == 1;
                let before = me.record.estimate;
                if to_phase_2 {
                    me.record.phase = 2;
                    me.estimates = Tally::default();
                    parts.push("F_to_phase_2");
                } else {
                    parts.push("F_joins");
                }
                if carried.proposer == chair {
                    parts.push(if before == carried { "F_takes_what_it_has" } else { "F_takes_the_estimate" });
                    me.record.estimate = carried;
                } else {
                    parts.push("F_of_another_proposer");
                }
                if to_phase_2 {
                    let late = self.has_error(Error::FAfterAdopting);
                    out.push((Message::F { round, from: who }, if late { me.record.estimate } else { before }));
                }
                me.estimates.add(from);
                if self.at_majority(&me.estimates) {
                    let next = round + 1;
                    if next > LAST_ROUND {
                        return Err((8, "round_64"));
                    }
                    me.record.round = next;
                    me.record.phase = 1;
                    me.record.marked = false;
                    me.record.estimate.proposer = who;
                    me.estimates = Tally::default();
                    me.suspicions = Tally::default();
                    if coordinator(next, self.n) == who {
                        out.push((Message::E { round: next, from: who }, me.record.estimate));
                        parts.push("F_enters_a_round_and_coordinates");
                    } else {
                        parts.push("F_enters_a_round");
                    }
                }
            }
            Message::Decision { .. } => {
                me.record.decision = Some(carried.value);
                out.push((Message::Decision { from: who }, Estimate { proposer: who, value: carried.value }));
                parts.push("Z_decides");
            }
        }
        Ok(Effect::Next(me, out, parts))
    }

    /// Writes the entries and counts them; a message that is handed over for the first time gets this
    /// depth. True where one had been sent before.
    fn hand_over(&mut self, messages: &[(Message, Estimate)], depth: u32, told: &mut Told) -> bool {
        let mut repeats = false;
        for (message, carried) in messages {
            let before = self.store.insert(*message, *carried).is_some();
            if !before || self.has_error(Error::RepeatsDeepen) {
                self.depths.insert(*message, depth);
            }
            self.count(before, told);
            repeats |= before;
        }
        repeats
    }

    /// One message more that is handed over, and whether its entry was sent before.
    fn count(&self, before: bool, told: &mut Told) {
        let again = match self.error {
            Some(Error::AgainNotCounted) => false,
            Some(Error::FirstCountsAsAgain) => !before,
            Some(Error::AgainAfterWriting) => true,
            _ => before,
        };
        told.sent += u64::from(!(before && self.has_error(Error::SentWithoutRepeats)));
        told.again += u64::from(again);
    }

    /// The error of an idle delivery that raises the depth of an undecided process.
    fn deepen_by_idle(&mut self, who: u32, message: Message) {
        let depth = self.depth_of(message);
        let me = self.memory.get_mut(&who).expect("an up process has a memory");
        if me.record.decision.is_none() {
            me.record.deepen(depth);
            self.disk.get_mut(&who).expect("a process has a disk").deepen(depth);
        }
    }

    fn crash(&mut self, who: u32) {
        self.memory.remove(&who);
        if self.has_error(Error::RecoveriesLostAtACrash) {
            self.disk.get_mut(&who).expect("a process has a disk").recoveries = 0;
        }
    }

    /// One recovery more, on the disk and in the memory that a pause left.
    fn count_recovery(&mut self, who: u32) {
        self.disk.get_mut(&who).expect("a process has a disk").recoveries += 1;
        if let Some(me) = self.memory.get_mut(&who) {
            me.record.recoveries += 1;
        }
    }

    pub fn step(&mut self, step: &Step) -> Told {
        let who = step.who();
        let mut told = Told { outcome: Outcome::Applied, handed_over: Vec::new(), sent: 0, again: 0, decided: false, parts: Vec::new() };
        let effect = match self.attempt(step) {
            Ok(effect) => effect,
            Err((number, cause)) => {
                told.outcome = Outcome::Refused(number, cause);
                return told;
            }
        };
        match effect {
            Effect::Idle(reason) if step.is_cut() => {
                told.parts = vec!["idle", reason];
                self.crash(who);
            }
            Effect::Idle(reason) => {
                told.outcome = Outcome::Idle(reason);
                if let (Step::Deliver { message, .. }, true) = (step, self.has_error(Error::IdleDeepens)) {
                    self.deepen_by_idle(who, *message);
                }
            }
            Effect::Next(mut next, messages, parts) => {
                told.parts = parts;
                let before = self.record(who).depth;
                let depth = if self.has_error(Error::DepthBeforeTheStep) { before } else { next.record.depth };
                if step.is_cut() && self.has_error(Error::HandsOverBeforeStoring) {
                    // The error: the messages are out, the record is not stored.
                    self.hand_over(&messages, depth, &mut told);
                    told.handed_over = messages;
                    self.crash(who);
                    return told;
                }
                if step.is_cut() && self.has_error(Error::CutLosesDepth) {
                    next.record.depth = before;
                }
                told.decided = self.record(who).decision.is_none() && next.record.decision.is_some();
                self.disk.insert(who, next.record.clone());
                if step.is_cut() {
                    if self.has_error(Error::CutCounts) {
                        messages.iter().for_each(|(message, _)| self.count(self.store.contains_key(message), &mut told));
                    }
                    self.kept_back.extend(messages.iter().map(|(message, _)| *message));
                    self.crash(who);
                } else {
                    self.memory.insert(who, next);
                    if self.hand_over(&messages, depth, &mut told) {
                        told.parts.push("handed_over_again");
                    }
                    told.handed_over = messages;
                }
            }
            Effect::Pause => {
                told.parts.push("pauses");
                self.paused.insert(who);
                if self.has_error(Error::PauseEmptiesTallies) {
                    let me = self.memory.get_mut(&who).expect("an up process has a memory");
                    me.estimates = Tally::default();
                    me.suspicions = Tally::default();
                }
            }
            Effect::Crash => {
                let record = self.record(who);
                told.parts.push(match (record.decision, record.phase) {
                    (Some(_), _) => "crashes_decided",
                    (None, 2) => "crashes_in_phase_2",
                    _ => "crashes_in_phase_1",
                });
                self.crash(who);
            }
            Effect::Recover => {
                let paused = self.paused.remove(&who);
                if !(paused && self.has_error(Error::RecoveryNotCountedAfterAPause)) {
                    self.count_recovery(who);
                }
                if paused {
                    told.parts.push("recovers_from_a_pause");
                } else {
                    let mut record = self.disk[&who].clone();
                    told.parts.push(match (record.decision, record.phase) {
                        (Some(_), _) => "recovers_decided",
                        (None, 2) => "recovers_in_phase_2",
                        _ => "recovers_in_phase_1",
                    });
                    if self.has_error(Error::BackInPhase1) {
                        record.phase = 1;
                    }
                    self.memory.insert(who, Memory { record, estimates: Tally::default(), suspicions: Tally::default() });
                }
            }
        }
        told
    }
}
