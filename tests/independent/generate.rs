// Schedule files to hold two programs against each other, repeatable from a seed: walks that
// deliver what is really in the store, plans that reach the last round, walks past the greatest
// number of recoveries, walks in which depths differ, and files damaged in every place of the form and
// at every column. The walks run on the rules of this folder, always without an error.

use crate::rules::{coordinator, majority, Group, Message, Step, MOST_RECOVERIES};
use crate::schedule::Schedule;
use std::collections::BTreeSet;

/// A repeatable source of numbers (splitmix64).
pub struct Chance(u64);

impl Chance {
    pub fn new(seed: u64, index: u64) -> Chance {
        let mut chance = Chance(seed.wrapping_mul(0x9E37_79B9_7F4A_7C15) ^ index.wrapping_mul(0xD1B5_4A32_D192_ED03));
        chance.next();
        chance
    }
    fn next(&mut self) -> u64 {
        self.0 = self.0.wrapping_add(0x9E37_79B9_7F4A_7C15);
        let mut z = self.0;
        z = (z ^ (z >> 30)).wrapping_mul(0xBF58_476D_1CE4_E5B9);
        z = (z ^ (z >> 27)).wrapping_mul(0x94D0_49BB_1331_11EB);
        z ^ (z >> 31)
    }
    fn below(&mut self, n: u64) -> u64 {
        self.next() % n.max(1)
    }
    fn between(&mut self, low: u64, high: u64) -> u64 {
        low + self.below(high - low + 1)
    }
    fn percent(&mut self, p: u64) -> bool {
        self.below(100) < p
    }
    fn pick<T: Clone>(&mut self, from: &[T]) -> T {
        from[self.below(from.len() as u64) as usize].clone()
    }
    /// The place of one of the weights, each as likely as its weight.
    fn weighted(&mut self, weights: &[u64]) -> usize {
        let mut left = self.below(weights.iter().sum());
        for (place, weight) in weights.iter().enumerate() {
            if left < *weight {
                return place;
            }
            left -= weight;
        }
        0
    }
}

/// How likely each kind of step is; the cuts are in percent.
#[derive(Clone)]
struct Mood {
    e: u64,
    s: u64,
    f: u64,
    z: u64,
    suspect: u64,
    any: u64,
    repeat: u64,
    crash: u64,
    pause: u64,
    recover: u64,
    unsent: u64,
    out_of_range: u64,
    impossible: u64,
    cut: u64,
    crash_between_phases: u64,
}

fn mood(kind: &str, chance: &mut Chance) -> Mood {
    let calm = Mood {
        e: 60, s: 4, f: 8, z: 4, suspect: 3, any: 6, repeat: 3, crash: 1, pause: 1, recover: 6, unsent: 1,
        out_of_range: 1, impossible: 1, cut: 1, crash_between_phases: 0,
    };
    match kind {
        "suspicious" => Mood { e: 4, s: 40, f: 40, z: 1, suspect: 22, ..calm },
        "stormy" => {
            Mood { e: 20, s: 22, f: 24, z: 3, suspect: 14, crash: 5, pause: 5, recover: 30, cut: 18, repeat: 8, ..calm }
        }
        "wild" => Mood { e: 15, s: 15, f: 15, suspect: 8, any: 15, repeat: 10, unsent: 12, out_of_range: 14, impossible: 8,
            crash: 3, pause: 3, recover: 14, cut: 12, ..calm },
        "phases" => Mood { e: 6, s: 36, f: 36, suspect: 22, recover: 40, cut: 6, crash_between_phases: 35, ..calm },
        "mixed" => Mood {
            e: chance.below(50), s: chance.below(50), f: chance.below(50), z: chance.below(5), suspect: chance.below(30) + 1,
            crash: chance.below(5), pause: chance.below(5), recover: 4 + chance.below(30), repeat: chance.below(12),
            any: chance.below(12), cut: chance.below(12), ..calm
        },
        _ => calm,
    }
}

struct Walk {
    values: Vec<u32>,
    group: Group,
    steps: Vec<Step>,
}

const ODD_NUMBERS: [u32; 9] = [0, 17, 18, 64, 255, 256, 65_536, 2_147_483_648, 4_294_967_295];

impl Walk {
    fn new(n: u32, chance: &mut Chance) -> Walk {
        let style = chance.below(10);
        let values: Vec<u32> = (1..=n)
            .map(|i| match style {
                0 => chance.pick(&[0, 1, 4_294_967_295, 4_294_967_294]),
                1 => chance.below(3) as u32,
                2 => chance.next() as u32,
                _ => 100 * i + chance.below(90) as u32,
            })
            .collect();
        let group = Group::start(&values, None).expect("1 to 16 values");
        Walk { values, group, steps: Vec::new() }
    }

    fn take(&mut self, step: Step) {
        self.group.step(&step);
        self.steps.push(step);
    }

    fn everyone(&self) -> Vec<u32> {
        (1..=self.group.n).collect()
    }

    fn down(&self) -> Vec<u32> {
        (1..=self.group.n).filter(|p| !self.group.is_up(*p)).collect()
    }

    fn message(&self, letter: char, round: u32, from: u32) -> Message {
        match letter {
            'E' => Message::E { round, from },
            'S' => Message::S { round, from },
            'F' => Message::F { round, from },
            _ => Message::Decision { from },
        }
    }

    /// A delivery that is in the store and would not be idle.
    fn useful(&self, to: u32, letter: char, chance: &mut Chance) -> Option<Message> {
        let round = self.group.record(to).round;
        let last = if letter == 'S' { round } else { 63 };
        let found: Vec<Message> = self
            .group
            .store
            .range(self.message(letter, round, 0)..=self.message(letter, last, 16))
            .map(|(message, _)| *message)
            .filter(|message| self.group.why_idle(to, *message).is_none())
            .collect();
        if found.is_empty() {
            return None;
        }
        // Mostly the lowest rounds, so that jumps do not swallow everything.
        let first = found.iter().filter(|m| m.round() == found[0].round()).count();
        Some(if chance.percent(75) { chance.pick(&found[..first]) } else { chance.pick(&found) })
    }

    fn from_the_store(&self, chance: &mut Chance) -> Message {
        let all: Vec<&Message> = self.group.store.keys().collect();
        *chance.pick(&all)
    }

    fn advance(&mut self, mood: &Mood, favoured: &[u32], chance: &mut Chance) {
        let n = self.group.n;
        let cut = chance.percent(mood.cut);
        let mut who = if chance.percent(80) { chance.pick(favoured) } else { chance.pick(&self.everyone()) };
        let down = self.down();
        if !self.group.is_up(who) && down.len() < n as usize && chance.percent(80) {
            who = chance.pick(&self.everyone().into_iter().filter(|p| self.group.is_up(*p)).collect::<Vec<_>>());
        }
        let weights = [
            mood.e, mood.s, mood.f, mood.z, mood.suspect, mood.any, mood.repeat, mood.crash, mood.pause,
            mood.recover * down.len().min(4) as u64, mood.unsent, mood.out_of_range, mood.impossible,
        ];
        let letter = chance.pick(&['E', 'S', 'F', 'Z']);
        let top = self.everyone().iter().map(|p| self.group.record(*p).round).max().unwrap_or(0);
        match chance.weighted(&weights) {
            choice @ 0..=3 if self.group.is_up(who) => {
                let order = [['E', 'F', 'S'], ['S', 'F', 'E'], ['F', 'S', 'E'], ['Z', 'F', 'S']][choice];
                let found = order.iter().find_map(|letter| self.useful(who, *letter, chance));
                let record = self.group.record(who);
                let can_suspect = record.decision.is_none() && record.phase == 1 && !record.marked;
                let phase = record.phase;
                match found {
                    Some(message) => self.take(Step::Deliver { to: who, message, cut }),
                    None if can_suspect => self.take(Step::Suspect { who, cut }),
                    None => {
                        let message = self.from_the_store(chance);
                        self.take(Step::Deliver { to: who, message, cut })
                    }
                }
                let now = self.group.record(who);
                if phase == 1 && now.phase == 2 && chance.percent(mood.crash_between_phases) {
                    self.take(Step::Crash { who });
                }
            }
            4 => {
                let able = |p: &u32| {
                    let record = self.group.record(*p);
                    self.group.is_up(*p) && record.decision.is_none() && record.phase == 1 && !record.marked
                };
                let able: Vec<u32> = self.everyone().into_iter().filter(able).collect();
                let who = if able.is_empty() || chance.percent(15) { who } else { chance.pick(&able) };
                self.take(Step::Suspect { who, cut })
            }
            6 if !self.steps.is_empty() => {
                let back = chance.below(self.steps.len().min(6) as u64) as usize;
                let mut step = self.steps[self.steps.len() - 1 - back];
                if let Step::Deliver { cut: old, .. } = &mut step {
                    *old = cut;
                }
                self.take(step)
            }
            7 => self.take(Step::Crash { who }),
            8 => self.take(Step::Pause { who }),
            9 => {
                let who = chance.pick(&down);
                self.take(Step::Recover { who })
            }
            10 => {
                let (round, from) = (chance.between(0, u64::from(top) + 2).min(63) as u32, chance.between(1, u64::from(n)) as u32);
                let message = self.message(letter, chance.pick(&[round, round, 63]), from);
                self.take(Step::Deliver { to: who, message, cut })
            }
            11 => {
                let mut odd: Vec<u32> = ODD_NUMBERS.to_vec();
                odd.push(n + 1);
                let number = chance.pick(&odd);
                let step = match chance.below(8) {
                    0 | 1 => Step::Deliver { to: number, message: self.from_the_store(chance), cut },
                    2 => Step::Deliver { to: who, message: self.message(letter, top, number), cut },
                    3 | 4 => {
                        let round = chance.pick(&[64, 65, 100, 256, 65_536, 4_294_967_295]);
                        let from = if chance.percent(80) { chance.between(1, u64::from(n)) as u32 } else { number };
                        Step::Deliver { to: who, message: self.message(letter, round, from), cut }
                    }
                    5 => Step::Suspect { who: number, cut },
                    6 => Step::Recover { who: number },
                    _ => chance.pick(&[Step::Pause { who: number }, Step::Crash { who: number }]),
                };
                self.take(step)
            }
            12 => {
                // Steps that are refused where they stand: 5 and 7.
                let who = if down.is_empty() || chance.percent(40) { who } else { chance.pick(&down) };
                let step = match chance.below(6) {
                    0 => Step::Recover { who },
                    1 => Step::Suspect { who, cut },
                    2 => Step::Crash { who },
                    3 => Step::Pause { who },
                    _ => Step::Deliver { to: who, message: self.from_the_store(chance), cut },
                };
                self.take(step)
            }
            _ => {
                let message = self.from_the_store(chance);
                self.take(Step::Deliver { to: who, message, cut })
            }
        }
    }

    /// Walk on to so many steps; the mood and the favoured processes change on the way.
    fn walk(&mut self, kinds: &[&str], length: usize, chance: &mut Chance) {
        while self.steps.len() < length {
            let mood = mood(chance.pick(kinds), chance);
            let everyone = self.everyone();
            let favoured: Vec<u32> = if chance.percent(50) {
                everyone
            } else {
                let most = (majority(self.group.n) as u64 + chance.below(2)) as usize;
                let mut chosen = BTreeSet::new();
                while chosen.len() < most.min(everyone.len()) {
                    chosen.insert(chance.pick(&everyone));
                }
                chosen.into_iter().collect()
            };
            let until = (self.steps.len() + chance.between(15, 90) as usize).min(length);
            while self.steps.len() < until {
                self.advance(&mood, &favoured, chance);
            }
        }
        self.steps.truncate(length);
    }

    /// The shortest way up: in each round a majority suspects, the coordinator of the next round
    /// goes there by a majority of F, and its E takes the others along.
    fn climb(&mut self, to_round: u32, noise: u64, chance: &mut Chance) {
        for round in 0..=to_round {
            self.climb_one(round, noise, chance);
        }
    }

    /// The way up from one round to the next.
    fn climb_one(&mut self, round: u32, noise: u64, chance: &mut Chance) {
        let n = self.group.n;
        let leader = coordinator(round + 1, n);
        let mut others: Vec<u32> = self.everyone().into_iter().filter(|p| *p != leader).collect();
        while others.len() + 1 > majority(n) {
            others.remove(chance.below(others.len() as u64) as usize);
        }
        let crew: Vec<u32> = others.iter().copied().chain([leader]).collect();
        let mut plan: Vec<Step> = Vec::new();
        let deliver = |to: u32, message: Message| Step::Deliver { to, message, cut: false };
        // Whoever stayed behind is taken along by the E of the one who led here.
        let here = coordinator(round, n);
        plan.extend(crew.iter().filter(|p| self.group.record(**p).round < round).map(|p| deliver(*p, Message::E { round, from: here })));
        plan.extend(crew.iter().map(|p| Step::Suspect { who: *p, cut: false }));
        plan.extend(crew.iter().map(|p| deliver(leader, Message::S { round, from: *p })));
        plan.extend(others.iter().map(|p| deliver(*p, Message::F { round, from: leader })));
        plan.extend(crew.iter().map(|p| deliver(leader, Message::F { round, from: *p })));
        for step in plan {
            if chance.percent(noise) {
                let who = chance.pick(&crew);
                match chance.below(5) {
                    0 => {
                        self.take(Step::Pause { who });
                        self.take(step);
                        self.take(Step::Recover { who });
                    }
                    1 => self.take(Step::Recover { who }),
                    2 => self.take(deliver(who, Message::F { round: 63, from: who })),
                    3 => self.take(deliver(who, Message::S { round: round + 1, from: leader })),
                    _ => self.take(deliver(who, Message::E { round: 64, from: leader })),
                }
            }
            self.take(step);
        }
    }

    /// A step that takes a process down, if it is up: a crash, a pause or a cut.
    fn downward(&self, who: u32, chance: &mut Chance) -> Step {
        match chance.weighted(&[7, 7, 1, 6]) {
            0 => Step::Crash { who },
            1 => Step::Pause { who },
            2 => Step::Suspect { who, cut: true },
            _ => Step::Deliver { to: who, message: self.from_the_store(chance), cut: true },
        }
    }

    /// These go down and come back until one of them has so many recoveries, with other steps between.
    fn come_back(&mut self, these: &[u32], goal: u32, chance: &mut Chance) {
        let mood = mood(chance.pick(&["calm", "suspicious", "mixed"]), chance);
        let everyone = self.everyone();
        while these.iter().all(|p| self.group.record(*p).recoveries < goal) && self.steps.len() < 3_000 {
            let who = chance.pick(these);
            let step = if self.group.is_up(who) { self.downward(who, chance) } else { Step::Recover { who } };
            self.take(step);
            match chance.below(40) {
                // Refused where it stands: 7 while up, 5 while down.
                0 if self.group.is_up(who) => self.take(Step::Recover { who }),
                0 => {
                    let step = self.downward(who, chance);
                    self.take(step)
                }
                1..=6 => self.advance(&mood, &everyone, chance),
                _ => {}
            }
        }
    }

    /// The E of a round goes from process to process: so many percent hear it, so many of them from
    /// the one before and the others from the coordinator. On the way some deliveries are cut, and
    /// some who relayed crash, recover and relay again.
    fn relay_chain(&mut self, round: u32, share: u64, links: u64, chance: &mut Chance) {
        let first = coordinator(round, self.group.n);
        let hear = |to: u32, from: u32, cut: bool| Step::Deliver { to, message: Message::E { round, from }, cut };
        let mut waiting: Vec<u32> = self.everyone().into_iter().filter(|p| *p != first && chance.percent(share)).collect();
        let mut heard = vec![first];
        let mut last = first;
        while !waiting.is_empty() {
            let who = waiting.remove(chance.below(waiting.len() as u64) as usize);
            if chance.percent(15) {
                // The depth is stored, the relay is not out; it is after another E.
                self.take(hear(who, last, true));
                self.take(Step::Recover { who });
                let from = chance.pick(&heard);
                self.take(hear(who, from, false));
            } else {
                self.take(hear(who, last, false));
            }
            last = if chance.percent(links) { who } else { first };
            let again = chance.pick(&heard);
            if again != first && chance.percent(25) {
                self.take(Step::Crash { who: again });
                self.take(Step::Recover { who: again });
                self.take(hear(again, who, false));
                last = again;
            }
            heard.push(who);
        }
    }

    /// To one of these an idle delivery of a message that is deeper than it, if there is one.
    fn idle_and_deep(&mut self, these: &[u32], chance: &mut Chance) {
        let mut found: Vec<(u32, Message)> = Vec::new();
        for &who in these {
            let depth = self.group.record(who).depth;
            let open = self.group.is_up(who) && self.group.record(who).decision.is_none();
            let deep = self.group.store.keys().filter(|m| open && self.group.depth_of(**m) >= depth);
            found.extend(deep.filter(|m| self.group.why_idle(who, **m).is_some()).map(|m| (who, *m)));
        }
        if !found.is_empty() {
            let (to, message) = chance.pick(&found);
            let cut = chance.percent(20);
            self.take(Step::Deliver { to, message, cut });
            if cut {
                self.take(Step::Recover { who: to });
            }
        }
    }

    /// A process hears the E of its round until it decides, if there are enough of them and no cut
    /// ends it.
    fn gather(&mut self, who: u32, chance: &mut Chance) {
        let round = self.group.record(who).round;
        let mut senders = self.everyone();
        while self.group.is_up(who) && !senders.is_empty() {
            let from = senders.remove(chance.below(senders.len() as u64) as usize);
            let message = Message::E { round, from };
            if self.group.store.contains_key(&message) && self.group.why_idle(who, message).is_none() {
                let cut = chance.percent(6);
                self.take(Step::Deliver { to: who, message, cut });
            }
        }
    }

    /// A delivery that is not idle: the deepest, the least deep or any; sometimes a suspicion, or
    /// a crash and a recovery.
    fn by_depth(&mut self, chance: &mut Chance) {
        let open = |p: &u32| self.group.is_up(*p) && self.group.record(*p).decision.is_none();
        let open: Vec<u32> = self.everyone().into_iter().filter(open).collect();
        let down = self.down();
        if !down.is_empty() && (open.is_empty() || chance.percent(30)) {
            let who = chance.pick(&down);
            self.take(Step::Recover { who });
            return;
        }
        if open.is_empty() {
            return;
        }
        let who = chance.pick(&open);
        let cut = chance.percent(8);
        match chance.below(12) {
            0 => self.take(Step::Suspect { who, cut }),
            1 => {
                self.take(Step::Crash { who });
                self.take(Step::Recover { who });
            }
            2 | 3 => self.idle_and_deep(&open, chance),
            choice => {
                let decisions = choice == 4;
                let wanted = |m: &Message| decisions || !matches!(m, Message::Decision { .. });
                let able: Vec<Message> = self.group.store.keys().copied().filter(wanted).collect();
                let mut able: Vec<Message> = able.into_iter().filter(|m| self.group.why_idle(who, *m).is_none()).collect();
                able.sort_by_key(|m| self.group.depth_of(*m));
                if let (Some(least), Some(most)) = (able.first().copied(), able.last().copied()) {
                    let message = match chance.below(5) {
                        0 | 1 => most,
                        2 | 3 => least,
                        _ => chance.pick(&able),
                    };
                    self.take(Step::Deliver { to: who, message, cut });
                }
            }
        }
    }

    /// A decision goes from process to process; some deliveries are cut, and it goes on from another.
    fn pass_on(&mut self, chance: &mut Chance) {
        let decisions = |m: &&Message| matches!(m, Message::Decision { .. });
        let known: Vec<u32> = self.group.store.keys().filter(decisions).map(|m| m.from()).collect();
        if known.is_empty() {
            return;
        }
        let mut from = chance.pick(&known);
        let mut open: Vec<u32> = self.everyone().into_iter().filter(|p| self.group.record(*p).decision.is_none()).collect();
        while !open.is_empty() {
            let who = open.remove(chance.below(open.len() as u64) as usize);
            if !self.group.is_up(who) {
                self.take(Step::Recover { who });
            }
            let cut = chance.percent(10);
            self.take(Step::Deliver { to: who, message: Message::Decision { from }, cut });
            if !cut && chance.percent(85) {
                from = who;
            }
        }
    }

    fn schedule(self, chance: &mut Chance) -> Schedule {
        let mut warmup = self.steps;
        let at = match chance.below(4) {
            0 => 0,
            1 => warmup.len() as u64,
            _ => chance.below(warmup.len() as u64 + 1),
        };
        let measured = warmup.split_off(at as usize);
        Schedule { values: self.values, warmup, measured }
    }
}

fn group_size(chance: &mut Chance) -> u32 {
    if chance.percent(60) { chance.between(2, 5) as u32 } else { chance.between(1, 16) as u32 }
}

fn small(chance: &mut Chance) -> Schedule {
    let mut walk = Walk::new(chance.between(1, 5) as u32, chance);
    let length = chance.between(2, 12) as usize;
    walk.walk(&["stormy", "mixed", "wild"], length, chance);
    let mut warmup = walk.steps;
    let measured = warmup.split_off(1 + chance.below(length as u64 - 1) as usize);
    Schedule { values: walk.values, warmup, measured }
}

/// A walk to the greatest number of recoveries, or one short of it; then more recovers, which get
/// 7 while the process is up and 13 while it is down.
fn many_recoveries(chance: &mut Chance) -> Schedule {
    let n = group_size(chance);
    let mut walk = Walk::new(n, chance);
    let length = chance.below(30) as usize;
    walk.walk(&["mixed", "suspicious"], length, chance);
    let who = chance.between(1, u64::from(n)) as u32;
    let these = if chance.percent(70) { vec![who] } else { vec![who, who % n + 1] };
    let goal = MOST_RECOVERIES - u32::from(chance.percent(20));
    walk.come_back(&these, goal, chance);
    for _ in 0..chance.between(3, 12) {
        let who = chance.pick(&these);
        let step = match chance.below(3) {
            0 => walk.downward(who, chance),
            _ => Step::Recover { who },
        };
        walk.take(step);
    }
    let length = walk.steps.len() + chance.between(0, 60) as usize;
    walk.walk(&["stormy", "mixed", "wild"], length, chance);
    walk.schedule(chance)
}

/// A walk in which depths differ: relays from process to process over some rounds, messages that
/// come too late for their receivers or too early, deliveries chosen by depth, and a decision that
/// is passed on from process to process.
fn deep(chance: &mut Chance) -> Schedule {
    let n = match chance.weighted(&[60, 30, 10]) {
        0 => chance.between(3, 5),
        1 => chance.between(6, 16),
        _ => chance.between(1, 2),
    } as u32;
    let mut walk = Walk::new(n, chance);
    let rounds = match chance.weighted(&[20, 60, 15, 5]) {
        0 => 0,
        1 => chance.between(1, 3),
        2 => chance.between(4, 12),
        _ => chance.between(13, 63),
    } as u32;
    // Where the last round is kept from them, those left behind can still decide in the one before.
    let left_behind = rounds > 0 && chance.percent(60);
    let links = chance.pick(&[0, 50, 100, 100]);
    for round in 0..=rounds {
        let share = if left_behind && round + 1 == rounds { 100 } else { chance.pick(&[60, 100, 100]) };
        if round < rounds || !left_behind {
            walk.relay_chain(round, share, links, chance);
        }
        if round < rounds {
            walk.climb_one(round, 0, chance);
        }
    }
    let (ahead, mut behind): (Vec<u32>, Vec<u32>) = walk.everyone().into_iter().partition(|p| walk.group.record(*p).round == rounds);
    behind.retain(|p| walk.group.record(*p).phase == 1);
    for who in ahead {
        if chance.percent(if left_behind { 90 } else { 30 }) {
            walk.take(Step::Suspect { who, cut: false });
        }
    }
    for _ in 0..chance.between(0, u64::from(n)) + u64::from(left_behind) {
        let who = if behind.is_empty() || chance.percent(30) { chance.pick(&walk.everyone()) } else { chance.pick(&behind) };
        for _ in 0..chance.below(3) {
            walk.idle_and_deep(&[who], chance);
        }
        if chance.percent(80) {
            walk.gather(who, chance);
        }
    }
    for _ in 0..chance.below(4 * u64::from(n) + 4) {
        walk.by_depth(chance);
    }
    if chance.percent(80) {
        walk.pass_on(chance);
    }
    walk.steps.truncate(4_096);
    walk.schedule(chance)
}

/// A sound file of exactly so many bytes: a walk, then refused steps as long as they must be.
fn of_size(size: usize, chance: &mut Chance) -> Vec<u8> {
    let mut walk = Walk::new(chance.between(1, 16) as u32, chance);
    walk.walk(&["stormy", "wild", "suspicious"], 1_200, chance);
    let mut schedule = Schedule { values: walk.values, measured: walk.steps.split_off(100), warmup: walk.steps };
    let longest = Message::E { round: u32::MAX, from: u32::MAX };
    let mut missing = size - schedule.text().len();
    while missing > 0 {
        // "E", three numbers of ten digits and a cut take 37 bytes, a pause takes 4 to 13.
        if missing > 50 {
            schedule.measured.push(Step::Deliver { to: u32::MAX, message: longest, cut: true });
            missing -= 37;
        } else {
            let piece = if missing > 13 { (missing - 4).min(13) } else { missing };
            schedule.measured.push(Step::Pause { who: 10u32.pow(piece as u32 - 4) });
            missing -= piece;
        }
    }
    schedule.text().into_bytes()
}

type Line = Vec<u8>;

fn joined(lines: &[Line]) -> Vec<u8> {
    lines.iter().flat_map(|line| line.iter().copied().chain([b'\n'])).collect()
}

const TARGETS: [&str; 6] = ["values_count", "value", "warmup_count", "warmup_step", "measured_count", "measured_step"];

const LINE_DAMAGES: [&str; 47] = [
    "empty", "missing", "doubled", "space_ahead", "space_behind", "two_spaces", "tab_for_the_space", "no_space",
    "carriage_return", "nul_behind", "nul_ahead", "nul_for_the_space", "letter_behind", "leading_zero", "only_zeros", "plus_sign", "minus_sign",
    "number_4294967296", "number_4294967295", "number_of_20_digits", "number_18446744073709551616", "number_missing", "one_number_more", "byte_above_127",
    "lower_case", "other_letter", "first_byte_missing", "first_byte_doubled", "cut", "cut_twice", "small_cut", "cut_without_space", "cut_ahead",
    "cut_with_space_behind", "decimal_point", "hexadecimal", "comma", "apostrophe", "line_break_for_the_space", "no_line_end", "file_ends_ahead",
    "file_ends_within", "file_ends_ahead_of_the_line_end", "other_section_word", "form_feed", "underscore", "quoted",
];

/// One line of a sound file damaged in one named way.
fn damaged_line(lines: &[Line], at: usize, damage: &str, chance: &mut Chance) -> Vec<u8> {
    let line = lines[at].clone();
    let ahead = |bytes: &[u8]| [bytes, &line].concat();
    let behind = |bytes: &[u8]| [&line, bytes].concat();
    let space = line.iter().position(|b| *b == b' ');
    let for_space = |bytes: &[u8]| match space {
        Some(place) => [&line[..place], bytes, &line[place + 1..]].concat(),
        None => [&line, bytes].concat(),
    };
    // The last number of the line, put another way.
    let words: Vec<&[u8]> = line.split(|b| *b == b' ').collect();
    let last = words.iter().rposition(|w| w.iter().all(|b| b.is_ascii_digit()));
    let number = |put: &dyn Fn(&[u8]) -> Vec<u8>| {
        let mut out: Vec<Vec<u8>> = words.iter().map(|w| w.to_vec()).collect();
        if let Some(place) = last {
            out[place] = put(words[place]);
        }
        out.retain(|w| !w.is_empty());
        out.join(&b' ')
    };
    let changed: Line = match damage {
        "empty" => Vec::new(),
        "space_ahead" => ahead(b" "),
        "space_behind" => behind(b" "),
        "two_spaces" => for_space(b"  "),
        "tab_for_the_space" => for_space(b"\t"),
        "no_space" => for_space(b""),
        "nul_for_the_space" => for_space(b"\0"),
        "line_break_for_the_space" => for_space(b"\n"),
        "carriage_return" => behind(b"\r"),
        "form_feed" => behind(b"\x0c"),
        "nul_behind" => behind(b"\0"),
        "nul_ahead" => ahead(b"\0"),
        "letter_behind" => behind(b"a"),
        "byte_above_127" => behind(&[chance.between(128, 255) as u8]),
        "leading_zero" => number(&|w| [b"0", w].concat()),
        "only_zeros" => number(&|_| b"00".to_vec()),
        "plus_sign" => number(&|w| [b"+", w].concat()),
        "minus_sign" => number(&|w| [b"-", w].concat()),
        "number_4294967296" => number(&|_| b"4294967296".to_vec()),
        "number_4294967295" => number(&|_| b"4294967295".to_vec()),
        "number_of_20_digits" => number(&|_| b"99999999999999999999".to_vec()),
        "number_18446744073709551616" => number(&|_| b"18446744073709551616".to_vec()),
        "number_missing" => number(&|_| Vec::new()),
        "one_number_more" => number(&|w| [w, b" 1"].concat()),
        "decimal_point" => number(&|w| [w, b".0"].concat()),
        "hexadecimal" => number(&|w| [b"0x", w].concat()),
        "comma" => number(&|w| [w, b",0"].concat()),
        "underscore" => number(&|w| [w, b"_0"].concat()),
        "apostrophe" => number(&|w| [w, b"'"].concat()),
        "quoted" => number(&|w| [b"\"", w, b"\""].concat()),
        "lower_case" => line.to_ascii_lowercase(),
        "other_letter" => {
            let mut line = line.clone();
            if let Some(first) = line.first_mut() {
                *first = chance.pick(b"ABDGHIJKLMNOTUVWXY0 ");
            }
            line
        }
        "first_byte_missing" => line[1.min(line.len())..].to_vec(),
        "first_byte_doubled" => ahead(&line[..1.min(line.len())]),
        "cut" => behind(b" X"),
        "cut_twice" => behind(b" X X"),
        "small_cut" => behind(b" x"),
        "cut_without_space" => behind(b"X"),
        "cut_ahead" => number(&|w| [b"X ", w].concat()),
        "cut_with_space_behind" => behind(b" X "),
        "other_section_word" => for_space(b"S "),
        _ => line.clone(),
    };
    let (before, after) = (joined(&lines[..at]), joined(&lines[at + 1..]));
    match damage {
        "missing" => [before, after].concat(),
        "doubled" => [&before[..], &line, b"\n", &line, b"\n", &after].concat(),
        "no_line_end" => [&before[..], &line, &after].concat(),
        "file_ends_ahead" => before,
        "file_ends_within" => [&before[..], &line[..line.len() / 2]].concat(),
        "file_ends_ahead_of_the_line_end" => [&before[..], &line].concat(),
        _ => [&before[..], &changed, b"\n", &after].concat(),
    }
}

const FILE_DAMAGES: [&str; 58] = [
    "empty_file", "only_a_line_end", "only_nul", "nul_bytes", "line_end_at_the_end", "step_at_the_end", "nul_at_the_end", "space_at_the_end",
    "text_at_the_end", "no_last_line_end", "no_values", "no_values_and_a_value", "seventeen_values", "seventeen_values_and_no_lines",
    "values_4294967295", "values_4294967296", "values_17_space_behind", "values_17_no_line_end", "values_0_carriage_return", "sixteen_values",
    "values_count_one_more", "values_count_one_less", "warmup_count_one_more", "warmup_count_one_less", "measured_count_one_more",
    "measured_count_one_less", "warmup_4097", "warmup_4294967295", "warmup_4294967296", "warmup_4097_space_behind", "warmup_4097_no_line_end",
    "steps_4097_in_all", "measured_4294967295", "measured_4294967296", "measured_4097_leading_zero", "measured_4096_after_a_warmup",
    "sections_swapped", "warmup_section_missing", "measured_section_missing", "measured_section_twice", "values_section_twice", "mark_of_byte_order",
    "carriage_returns_everywhere", "earlier_fault_first", "fault_ahead_of_a_count", "count_ahead_of_a_fault", "lines_reversed", "lower_case_everywhere",
    "no_steps_at_all", "warmup_4096_and_no_lines", "measured_4096_and_no_lines", "values_16_and_too_few", "value_lines_on_one_line", "steps_on_one_line",
    "values_empty_count", "comment_line", "blank_line_between_sections", "random_bytes",
];

/// A whole file damaged in one named way (some of them are sound, and named here as neighbours).
fn damaged_file(damage: &str, chance: &mut Chance) -> Vec<u8> {
    let mut schedule = small(chance);
    let text = schedule.text();
    let bytes = text.clone().into_bytes();
    let plus = |more: &[u8]| [&bytes[..], more].concat();
    let (v, w, m) = (schedule.values.len(), schedule.warmup.len(), schedule.measured.len());
    let with = |values: String, warmup: String, measured: String| {
        let mut out = format!("{}\n", values);
        schedule.values.iter().for_each(|value| out += &format!("{}\n", value));
        out += &format!("{}\n", warmup);
        schedule.warmup.iter().for_each(|step| out += &format!("{}\n", step));
        out += &format!("{}\n", measured);
        schedule.measured.iter().for_each(|step| out += &format!("{}\n", step));
        out.into_bytes()
    };
    let (vs, ws, ms) = (format!("VALUES {}", v), format!("WARMUP {}", w), format!("MEASURED {}", m));
    let lines: Vec<Line> = text.lines().map(|l| l.as_bytes().to_vec()).collect();
    let numbers = |count: u32| (0..count).map(|i| format!("{}\n", i)).collect::<String>();
    match damage {
        "empty_file" => Vec::new(),
        "only_a_line_end" => b"\n".to_vec(),
        "only_nul" => b"\0".to_vec(),
        "nul_bytes" => vec![0; chance.between(2, 300) as usize],
        "line_end_at_the_end" => plus(b"\n"),
        "step_at_the_end" => plus(b"R 1\n"),
        "nul_at_the_end" => plus(b"\0"),
        "space_at_the_end" => plus(b" "),
        "text_at_the_end" => plus(b"END"),
        "no_last_line_end" => bytes[..bytes.len() - 1].to_vec(),
        "no_values" => b"VALUES 0\nWARMUP 0\nMEASURED 0\n".to_vec(),
        "no_values_and_a_value" => with("VALUES 0".into(), ws, ms),
        "seventeen_values" => format!("VALUES 17\n{}WARMUP 0\nMEASURED 0\n", numbers(17)).into_bytes(),
        "seventeen_values_and_no_lines" => b"VALUES 17\n".to_vec(),
        "values_4294967295" => with("VALUES 4294967295".into(), ws, ms),
        "values_4294967296" => with("VALUES 4294967296".into(), ws, ms),
        "values_17_space_behind" => with("VALUES 17 ".into(), ws, ms),
        "values_17_no_line_end" => b"VALUES 17".to_vec(),
        "values_0_carriage_return" => with("VALUES 0\r".into(), ws, ms),
        "sixteen_values" => format!("VALUES 16\n{}WARMUP 0\nMEASURED 0\n", numbers(16)).into_bytes(),
        "values_count_one_more" => with(format!("VALUES {}", v + 1), ws, ms),
        "values_count_one_less" => with(format!("VALUES {}", v - 1), ws, ms),
        "warmup_count_one_more" => with(vs, format!("WARMUP {}", w + 1), ms),
        "warmup_count_one_less" => with(vs, format!("WARMUP {}", w - 1), ms),
        "measured_count_one_more" => with(vs, ws, format!("MEASURED {}", m + 1)),
        "measured_count_one_less" => with(vs, ws, format!("MEASURED {}", m - 1)),
        "warmup_4097" => with(vs, "WARMUP 4097".into(), ms),
        "warmup_4294967295" => with(vs, "WARMUP 4294967295".into(), ms),
        "warmup_4294967296" => with(vs, "WARMUP 4294967296".into(), ms),
        "warmup_4097_space_behind" => with(vs, "WARMUP 4097 ".into(), ms),
        "warmup_4097_no_line_end" => format!("VALUES 1\n{}WARMUP 4097", numbers(1)).into_bytes(),
        "steps_4097_in_all" => with(vs, ws, format!("MEASURED {}", 4097 - w)),
        "measured_4294967295" => with(vs, ws, "MEASURED 4294967295".into()),
        "measured_4294967296" => with(vs, ws, "MEASURED 4294967296".into()),
        "measured_4097_leading_zero" => with(vs, ws, "MEASURED 04097".into()),
        "measured_4096_after_a_warmup" => with(vs, ws, "MEASURED 4096".into()),
        "warmup_4096_and_no_lines" => b"VALUES 1\n0\nWARMUP 4096\n".to_vec(),
        "measured_4096_and_no_lines" => b"VALUES 1\n0\nWARMUP 0\nMEASURED 4096\n".to_vec(),
        "values_16_and_too_few" => with("VALUES 16".into(), ws, ms),
        "sections_swapped" => with(vs, format!("MEASURED {}", w), format!("WARMUP {}", m)),
        "warmup_section_missing" => {
            schedule.warmup.clear();
            schedule.text().replace("WARMUP 0\n", "").into_bytes()
        }
        "measured_section_missing" => {
            schedule.measured.clear();
            schedule.text().replace("MEASURED 0\n", "").into_bytes()
        }
        "measured_section_twice" => plus(b"MEASURED 0\n"),
        "values_section_twice" => [b"VALUES 1\n5\n", &bytes[..]].concat(),
        "mark_of_byte_order" => [b"\xEF\xBB\xBF", &bytes[..]].concat(),
        "carriage_returns_everywhere" => text.replace('\n', "\r\n").into_bytes(),
        "earlier_fault_first" => {
            let mut lines = lines;
            let first = chance.below(lines.len() as u64 - 1) as usize;
            lines[first].push(b' ');
            lines[first + 1].push(b'!');
            joined(&lines)
        }
        "fault_ahead_of_a_count" => {
            let mut lines = lines;
            lines[1].push(b'-');
            lines[v + 1] = b"WARMUP 9999".to_vec();
            joined(&lines)
        }
        "count_ahead_of_a_fault" => {
            let mut lines = lines;
            lines[v + 1] = b"WARMUP 9999".to_vec();
            lines[v + 2].push(b'-');
            joined(&lines)
        }
        "lines_reversed" => joined(&lines.into_iter().rev().collect::<Vec<_>>()),
        "lower_case_everywhere" => text.to_lowercase().into_bytes(),
        "no_steps_at_all" => {
            schedule.warmup.clear();
            schedule.measured.clear();
            schedule.text().into_bytes()
        }
        "value_lines_on_one_line" => b"VALUES 2\n1 2\nWARMUP 0\nMEASURED 0\n".to_vec(),
        "steps_on_one_line" => b"VALUES 2\n1\n2\nWARMUP 2\nQ 1 Q 2\nMEASURED 0\n".to_vec(),
        "values_empty_count" => with("VALUES ".into(), ws, ms),
        "comment_line" => [b"# schedule\n", &bytes[..]].concat(),
        "blank_line_between_sections" => with(vs, format!("\n{}", ws), ms),
        "random_bytes" => (0..chance.between(1, 400)).map(|_| chance.next() as u8).collect(),
        _ => bytes,
    }
}

/// Sound files whose every byte is damaged in turn.
const BASES: [&str; 4] = [
    "VALUES 3\n7\n10\n4294967295\nWARMUP 2\nE 2 1 0\nQ 3 X\nMEASURED 8\nR 3\nS 1 1 0 X\nF 1 2 63\nZ 10 2 X\nP 1\nC 2\nE 12 3 4294967295\nE 3 1 0 X\n",
    "VALUES 1\n0\nWARMUP 0\nMEASURED 0\n",
    "VALUES 2\n20\n0\nWARMUP 4\nE 1 1 0\nE 2 1 0\nZ 1 2\nE 1 2 0\nMEASURED 3\nZ 2 1 X\nR 2\nQ 1\n",
    "VALUES 10\n1\n2\n3\n4\n5\n6\n7\n8\n9\n10\nWARMUP 1\nS 10 10 10\nMEASURED 10\nQ 1\nQ 2\nQ 3\nQ 4\nQ 5\nQ 6\nS 9 1 0\nS 9 2 0\nP 9\nC 10\n",
];

const BYTES: [u8; 17] = *b" \n\r\t\0019-+XxEz\x80:/";

/// Byte damage number `which`: a base, a place in it and what is done there, all in turn.
fn damaged_byte(which: u64) -> (Vec<u8>, String) {
    let ways = 2 * BYTES.len() as u64 + 5;
    let total: u64 = BASES.iter().map(|base| base.len() as u64 * ways).sum();
    // A stride without common factor visits all of them, spread over all places.
    let mut number = (which % total).wrapping_mul(1_000_003) % total;
    for base in BASES.map(str::as_bytes) {
        if number >= base.len() as u64 * ways {
            number -= base.len() as u64 * ways;
            continue;
        }
        let (place, way) = ((number / ways) as usize, (number % ways) as usize);
        let (before, at, after) = (&base[..place], base[place], &base[place + 1..]);
        let put = |middle: &[u8]| [before, middle, after].concat();
        return match way {
            w if w < BYTES.len() => (put(&[BYTES[w]]), "replaced".into()),
            w if w < 2 * BYTES.len() => (put(&[BYTES[w - BYTES.len()], at]), "inserted".into()),
            w => match w - 2 * BYTES.len() {
                0 => (put(&[]), "deleted".into()),
                1 => (put(&[at, at]), "doubled".into()),
                2 => (before.to_vec(), "truncated".into()),
                3 if !after.is_empty() => ([before, &[after[0], at], &after[1..]].concat(), "swapped".into()),
                _ => (put(&[at ^ 0x20]), "case".into()),
            },
        };
    }
    unreachable!("the number is below the sum")
}

/// A sound file with lines of every form: all letters, cut or not, and numbers of one to ten digits.
fn any_form(chance: &mut Chance) -> Schedule {
    let number = |chance: &mut Chance| match chance.below(8) {
        0 => chance.pick(&ODD_NUMBERS),
        1 => chance.next() as u32 >> chance.below(32),
        _ => chance.below(20) as u32,
    };
    let values: Vec<u32> = (0..chance.between(1, 4)).map(|_| number(chance)).collect();
    let mut steps = || -> Vec<Step> {
        let length = chance.between(1, 6);
        (0..length)
            .map(|_| {
                let (who, from, round, cut) = (number(chance), number(chance), number(chance), chance.percent(40));
                match chance.below(8) {
                    0 => Step::Deliver { to: who, message: Message::E { round, from }, cut },
                    1 => Step::Deliver { to: who, message: Message::S { round, from }, cut },
                    2 => Step::Deliver { to: who, message: Message::F { round, from }, cut },
                    3 => Step::Deliver { to: who, message: Message::Decision { from }, cut },
                    4 => Step::Suspect { who, cut },
                    5 => Step::Pause { who },
                    6 => Step::Crash { who },
                    _ => Step::Recover { who },
                }
            })
            .collect()
    };
    let (warmup, measured) = (steps(), steps());
    Schedule { values, warmup, measured }
}

const COLUMN_DAMAGES: [&str; 13] = [
    "file_ends", "byte_changed", "byte_inserted", "byte_removed", "two_bytes_changed", "number", "line_end", "space", "line_start", "count",
    "section_word", "whole_line", "behind_the_end",
];

const NUMBERS: [&str; 30] = [
    "", "0", "00", "01", "007", "04294967295", "429496729", "429496730", "4294967295", "4294967296", "4294967299", "4294967300", "4300000000",
    "42949672949", "42949672950", "42949672960", "5000000000", "9999999999", "10000000000", "18446744073709551616", "99999999999999999999",
    "-1", "+1", "1.5", "1e3", "0x1", "1_0", "1,0", "X", "1X",
];

const LINE_ENDS: [&[u8]; 22] = [
    b"", b" ", b"\r\n", b" \n", b"  \n", b"\t\n", b" X\n", b"  X\n", b" X \n", b" X\r\n", b" XX\n", b" X X\n", b" Y\n", b" x\n", b"X\n", b" 1\n",
    b" 0 X\n", b" X 0\n", b"\0\n", b"\xff\n", b"\n\n", b"0000000000\n",
];

const SPACES: [&[u8]; 11] = [b"", b"  ", b"\t", b"\0", b"\n", b"\r\n", b" \t", b"_", b",", b"\xff", b"\xc2\xa0"];

const LINE_STARTS: [&[u8]; 14] =
    [b" ", b"\t", b"\0", b"\xff", b"\xef\xbb\xbf", b"#", b"-", b"+", b"0", b"X ", b"E ", b"VALUES ", b"\n", b"\r"];

const COUNTS: [&str; 14] =
    ["0", "1", "16", "17", "99", "4095", "4096", "4097", "4294967295", "4294967296", "42949672950", "00", "017", "04097"];

const BEHIND_THE_END: [&[u8]; 12] =
    [b"\n", b"\r\n", b" ", b"\t", b"E", b"E 1 1 0\n", b"R 1", b"\0", b"\xff", b"MEASURED 0\n", b"0\n", b"X\n"];

/// A file of any form, damaged at any column of one of its lines: the damages in turn, the rest by chance.
fn damaged_column(turn: usize, chance: &mut Chance) -> (String, Vec<u8>) {
    let damage = COLUMN_DAMAGES[turn % COLUMN_DAMAGES.len()];
    let schedule = any_form(chance);
    let lines: Vec<Line> = schedule.text().split_inclusive('\n').map(|line| line.as_bytes().to_vec()).collect();
    let sections = [0, schedule.values.len() + 1, schedule.values.len() + schedule.warmup.len() + 2];
    // The section lines are few, and some damages are of them alone.
    let of_a_section = matches!(damage, "count" | "section_word") || chance.percent(35);
    let at = if of_a_section { chance.pick(&sections) } else { chance.below(lines.len() as u64) as usize };
    let mut line = lines[at].clone();
    let place = chance.below(line.len() as u64) as usize;
    let places = |wanted: &dyn Fn(usize) -> bool| -> Vec<usize> { (0..lines[at].len()).filter(|place| wanted(*place)).collect() };
    let is_digit = |place: usize| lines[at][place].is_ascii_digit();
    // Where the numbers of the line begin.
    let numbers = places(&|place| is_digit(place) && (place == 0 || !is_digit(place - 1)));
    let end_of = |number: usize| (number..lines[at].len()).find(|place| !is_digit(*place)).unwrap_or(lines[at].len());
    let odd_byte = |chance: &mut Chance| match chance.below(4) {
        0 => chance.pick(&[0, 255]),
        1 => chance.next() as u8,
        _ => chance.pick(&BYTES),
    };
    match damage {
        "byte_changed" => line[place] = odd_byte(chance),
        "byte_inserted" => line.insert(place, odd_byte(chance)),
        "byte_removed" => drop(line.remove(place)),
        "two_bytes_changed" => {
            for place in [place, chance.below(line.len() as u64) as usize] {
                line[place] = odd_byte(chance);
            }
        }
        "number" => {
            let number = chance.pick(&numbers);
            drop(line.splice(number..end_of(number), chance.pick(&NUMBERS).bytes()));
        }
        "line_end" => drop(line.splice(line.len() - 1.., chance.pick(&LINE_ENDS).iter().copied())),
        "space" => {
            let spaces = places(&|place| lines[at][place] == b' ');
            if !spaces.is_empty() {
                let space = chance.pick(&spaces);
                drop(line.splice(space..space + 1, chance.pick(&SPACES).iter().copied()));
            }
        }
        "line_start" => drop(line.splice(..0, chance.pick(&LINE_STARTS).iter().copied())),
        "count" => {
            let behind: [&[u8]; 7] = [b"\n", b"\n", b"\n", b" \n", b"x\n", b"\r\n", b""];
            drop(line.splice(numbers[0].., [chance.pick(&COUNTS).as_bytes(), chance.pick(&behind)].concat()));
        }
        "section_word" => {
            let letter = chance.below(numbers[0] as u64) as usize;
            match chance.below(5) {
                0 => line[letter] = chance.pick(b"VALUESWARMUPD 0"),
                1 => line[letter] ^= 0x20,
                2 => line.insert(letter, line[letter]),
                3 => drop(line.splice(letter..numbers[0] - 1, [])),
                _ => drop(line.splice(..numbers[0] - 1, chance.pick(&["VALUES", "WARMUP", "MEASURED", "VALUE", "E"]).bytes())),
            }
        }
        _ => {}
    }
    if damage == "whole_line" {
        match chance.below(4) {
            0 => line.clear(),
            1 => line = [&line[..], &line].concat(),
            2 => line = b"\n".to_vec(),
            _ => line = lines[chance.below(lines.len() as u64) as usize].clone(),
        }
    }
    let bytes = if damage == "behind_the_end" {
        [lines.concat(), chance.pick(&BEHIND_THE_END).to_vec()].concat()
    } else if damage == "file_ends" || chance.percent(20) {
        // One file in five ends inside the damaged line.
        [lines[..at].concat(), line[..chance.below(line.len() as u64 + 1) as usize].to_vec()].concat()
    } else {
        [lines[..at].concat(), line, lines[at + 1..].concat()].concat()
    };
    (format!("column_{}", damage), bytes)
}

/// File number `index` of a seed: its kind and its bytes.
pub fn file(index: u64, seed: u64) -> (String, Vec<u8>) {
    let mut owned = Chance::new(seed, index);
    let chance = &mut owned;
    // Every sixth file is damaged at a column, every twelfth has a damaged byte, every twentieth a damaged
    // line and every fortieth is damaged as a whole, all damages in turn, of the damaged bytes one in three
    // (seeds 1, 5 and 9 together have all); every two-hundredth walks to the greatest number of recoveries,
    // and every hundredth is about depths; the others have their shares.
    let turn = index.wrapping_add(seed.wrapping_mul(7_919));
    if index % 12 == 0 {
        let (bytes, way) = damaged_byte(turn / 4);
        return (format!("byte_{}", way), bytes);
    }
    if index % 4 == 0 {
        return damaged_column((index / 6).wrapping_add(seed) as usize, chance);
    }
    if index % 20 == 1 {
        return damaged_line_in_turn((turn / 20) as usize, chance);
    }
    if index % 40 == 2 {
        let damage = FILE_DAMAGES[(turn / 40) as usize % FILE_DAMAGES.len()];
        return (format!("file-{}", damage), damaged_file(damage, chance));
    }
    if index % 200 == 99 {
        return ("recoveries".into(), many_recoveries(chance).text().into_bytes());
    }
    if index % 100 == 49 {
        return ("depths".into(), deep(chance).text().into_bytes());
    }
    let share = chance.weighted(&[95, 120, 110, 120, 75, 75, 45, 15, 4, 1, 3, 50]);
    let walked = |kind: &str, moods: &[&str], low: u64, high: u64, chance: &mut Chance| {
        let n = group_size(chance);
        let mut walk = Walk::new(n, chance);
        let length = chance.between(low, high) * if n > 7 { 2 } else { 1 };
        walk.walk(moods, length as usize, chance);
        (kind.to_string(), walk.schedule(chance).text().into_bytes())
    };
    match share {
        0 => walked("calm", &["calm"], 10, 80, chance),
        1 => walked("suspicious", &["suspicious", "suspicious", "suspicious", "calm"], 20, 200, chance),
        2 => walked("mixed", &["mixed"], 20, 160, chance),
        3 => walked("stormy", &["stormy", "stormy", "suspicious"], 20, 160, chance),
        4 => walked("wild", &["wild"], 10, 100, chance),
        5 => walked("phases", &["phases", "phases", "calm"], 20, 160, chance),
        6 => {
            let mut walk = Walk::new(chance.between(1, 3) as u32, chance);
            let length = chance.between(3, 20) as usize;
            walk.walk(&["stormy", "mixed", "phases", "suspicious"], length, chance);
            ("tiny".into(), walk.schedule(chance).text().into_bytes())
        }
        7 => {
            let n = if chance.percent(70) { chance.between(1, 4) as u32 } else { chance.between(5, 16) as u32 };
            let mut walk = Walk::new(n, chance);
            let top = if chance.percent(75) { 63 } else { chance.between(3, 62) as u32 };
            let noise = chance.below(4);
            walk.climb(top, noise, chance);
            let length = (walk.steps.len() + chance.between(5, 60) as usize).min(4_096);
            walk.walk(&["suspicious", "stormy", "calm"], length, chance);
            (if top == 63 { "last_round" } else { "climb" }.into(), walk.schedule(chance).text().into_bytes())
        }
        8 => {
            let mut walk = Walk::new(chance.between(3, 16) as u32, chance);
            walk.walk(&["suspicious", "suspicious", "phases", "wild"], 4_096, chance);
            let mut bytes = walk.schedule(chance).text().into_bytes();
            if chance.percent(10) {
                bytes.extend(b"R 1\n");
            }
            ("long".into(), bytes)
        }
        9 => {
            let size = chance.pick(&[65_535, 65_535, 65_534, 65_536, 65_537]);
            let mut bytes = of_size(size, chance);
            if chance.percent(20) {
                let last = bytes.len() - 1;
                bytes[last] = b'\r';
            }
            (format!("of_{}_bytes", size), bytes)
        }
        11 => {
            // A majority climbs some rounds; then those who stayed behind hear of it.
            let mut walk = Walk::new(chance.between(3, 9) as u32, chance);
            let (top, noise) = (chance.between(1, 5) as u32, chance.below(6));
            walk.climb(top, noise, chance);
            let behind: Vec<u32> = walk.everyone().into_iter().filter(|p| walk.group.record(*p).round <= top).collect();
            for _ in 0..chance.between(1, 8) {
                let who = chance.pick(&behind);
                let message = walk.from_the_store(chance);
                let cut = chance.percent(12);
                walk.take(Step::Deliver { to: who, message, cut });
            }
            let length = walk.steps.len() + chance.between(5, 60) as usize;
            walk.walk(&["suspicious", "mixed", "stormy", "calm"], length, chance);
            ("jumps".into(), walk.schedule(chance).text().into_bytes())
        }
        _ => {
            let size = chance.pick(&[65_535, 65_536, 65_537, 70_000, 131_072, 200_000]);
            let filler = chance.pick(&[0u8, b'\n', b'0', b' ', b'V']);
            let mut bytes = small(chance).text().into_bytes();
            bytes.resize(size, filler);
            (format!("filled_to_{}_bytes", size), bytes)
        }
    }
}

fn damaged_line_in_turn(turn: usize, chance: &mut Chance) -> (String, Vec<u8>) {
    let (target, damage) = (turn % TARGETS.len(), LINE_DAMAGES[turn / TARGETS.len() % LINE_DAMAGES.len()]);
    let schedule = small(chance);
    let lines: Vec<Line> = schedule.text().lines().map(|l| l.as_bytes().to_vec()).collect();
    let (v, w, m) = (schedule.values.len() as u64, schedule.warmup.len() as u64, schedule.measured.len() as u64);
    let at = match target {
        0 => 0,
        1 => chance.between(1, v),
        2 => v + 1,
        3 => v + 1 + chance.between(1, w),
        4 => v + w + 2,
        _ => v + w + 2 + chance.between(1, m),
    };
    (format!("{}-{}", TARGETS[target], damage), damaged_line(&lines, at as usize, damage, chance))
}
