// Chooses test vectors among generated files: for each thing that a step can hit a small file
// that hits it, shortened to the steps that it needs; whole walks for the many causes of refusals
// and for cut refused steps; runs that show an error that looks right; damaged files by the name
// of their damage. Writes a table as well.

use crate::rules::{Error, ERRORS};
use crate::schedule::{answer, read, Schedule, Statistic};
use std::collections::{BTreeMap, BTreeSet};
use std::path::{Path, PathBuf};

const HEAD: &str = "# Test vectors

Schedule files with the reports that document 01 and requests 2026-01, 2026-03, 2026-05 and 2026-06 demand, as the implementation in
`tests/independent` gives them. `step_`, `cut_`, `idle_` and `refused_` files (letter, part of the rule or cause) hit what
they are named after in their last step, the only measured one. `ahead_of` files show the order of the refusals, `error_` files
give another report with one of the errors that look right (document 01's, two about the number of recoveries, five about
depths and five about what is sent again), `form_` files try the form of the file, and `walk_` files are whole random walks.
Refusals 2, 11 and 14 cannot occur in a run of a file.

| File | What it hits | Report |
|---|---|---|
";

fn hits(bytes: &[u8]) -> BTreeSet<String> {
    answer(bytes, None, &mut Statistic::default(), true).hits
}

/// Whether the report with this error is another one; with a depth above 0 where the error is to
/// show the depths of the undecided, since 0 in their place needs no step at all; with a message that
/// is handed over again where the error counts first ones, since any first one would do; and with one
/// that a cut keeps back where the error counts that.
fn shows(error: Error, bytes: &[u8]) -> bool {
    let report = |error| answer(bytes, error, &mut Statistic::default(), false).report;
    let (wrong, right) = (report(Some(error)), report(None));
    let above_0 = || wrong.lines().zip(right.lines()).any(|(wrong, right)| wrong != right && !wrong.ends_with(" 0"));
    let again = |report: &str| -> Vec<String> {
        report.lines().filter_map(|line| line.split_once(" again ")).map(|(_, rest)| rest.to_string()).collect()
    };
    let repeats = || again(&right).iter().any(|rest| !rest.starts_with("0 "));
    wrong != right
        && match error {
            Error::DepthOfTheUndecided => above_0(),
            Error::FirstCountsAsAgain | Error::AgainAfterWriting => repeats(),
            Error::CutCounts => again(&wrong) != again(&right),
            _ => true,
        }
}

/// The errors about depths.
fn is_about_depths(error: Error) -> bool {
    use Error::*;
    matches!(error, DepthBeforeTheStep | RepeatsDeepen | CutLosesDepth | IdleDeepens | DepthOfTheUndecided)
}

/// The errors about what is sent again.
fn is_about_again(error: Error) -> bool {
    use Error::*;
    matches!(error, AgainNotCounted | CutCounts | FirstCountsAsAgain | AgainAfterWriting | SentWithoutRepeats)
}

/// The errors about columns: no run shows one.
fn is_about_columns(error: Error) -> bool {
    use Error::*;
    matches!(error, ColumnOneTooSmall | ColumnOfTheNumber | Column0ForAMissingLine | CountAtTheLine | EndAtTheLastByte)
}

/// The schedule with as few steps as still hit the wanted thing.
fn shortened(schedule: &Schedule, wanted: &str) -> Schedule {
    with_few_steps(schedule, &|candidate| hits(candidate.text().as_bytes()).contains(wanted))
}

/// The schedule with so few steps that what holds for it holds no more without one of them.
fn with_few_steps(schedule: &Schedule, still: &dyn Fn(&Schedule) -> bool) -> Schedule {
    let mut best = schedule.clone();
    // From large pieces down to single steps.
    let mut piece = (best.warmup.len() + best.measured.len()).max(1);
    loop {
        let mut end = best.warmup.len() + best.measured.len();
        while end > 0 {
            let begin = end.saturating_sub(piece);
            let mut shorter = best.clone();
            let warm = shorter.warmup.len();
            let kept = |place: usize| place < begin || place >= end;
            let mut place = 0;
            shorter.warmup.retain(|_| { place += 1; kept(place - 1) });
            let mut place = warm;
            shorter.measured.retain(|_| { place += 1; kept(place - 1) });
            if still(&shorter) {
                best = shorter;
            }
            end = begin;
        }
        if piece == 1 {
            return best;
        }
        piece /= 2;
    }
}

/// All steps but the last as warm-up, so that the MEASURED line tells what the last one gives.
fn last_step_measured(schedule: &Schedule) -> Schedule {
    let mut steps = [&schedule.warmup[..], &schedule.measured[..]].concat();
    let last = steps.split_off(steps.len().saturating_sub(1));
    Schedule { values: schedule.values.clone(), warmup: steps, measured: last }
}

/// Hits that whole walks cover, many to a file: they are too many for a file each.
fn left_to_walks(hit: &str) -> bool {
    hit.starts_with("refused_3_") && !hit.contains("ahead") || hit.starts_with("refused_") && hit.contains("_cut_")
}

fn in_words(names: &[String]) -> String {
    names.join(", ").replace('_', " ")
}

pub fn choose(files: &[PathBuf], out: &Path) -> Result<bool, String> {
    std::fs::create_dir_all(out).map_err(|e| format!("{}: {}", out.display(), e))?;
    let kind_of = |file: &PathBuf| {
        let stem = file.file_stem().unwrap_or_default().to_string_lossy().into_owned();
        stem.split_once('-').map_or(stem.clone(), |(_, kind)| kind.to_string())
    };
    // Small sound files for each hit, two for each size of group; the smallest file for each damage; walks.
    let mut small: BTreeMap<String, Vec<Vec<u8>>> = BTreeMap::new();
    let size_of = |bytes: &Vec<u8>| read(bytes).map_or(0, |schedule| schedule.values.len());
    let mut damaged: BTreeMap<String, Vec<u8>> = BTreeMap::new();
    let mut walks: Vec<(String, Vec<u8>, BTreeSet<String>)> = Vec::new();
    for file in files {
        let bytes = std::fs::read(file).map_err(|e| format!("{}: {}", file.display(), e))?;
        let kind = kind_of(file);
        // The files about columns are for comparisons; those of the sweep's test are written by hand.
        if kind.starts_with("column_") {
            continue;
        }
        let sound = read(&bytes).is_ok();
        if sound {
            let all = hits(&bytes);
            // The files about depths are for the errors about depths alone.
            for hit in all.iter().filter(|_| kind != "depths") {
                let list = small.entry(hit.clone()).or_default();
                let same: Vec<usize> = (0..list.len()).filter(|i| list[*i][..9] == bytes[..9]).collect();
                match same.iter().copied().max_by_key(|i| list[*i].len()) {
                    Some(longest) if same.len() >= 2 && list[longest].len() > bytes.len() => list[longest] = bytes.clone(),
                    Some(_) if same.len() >= 2 => {}
                    _ => list.push(bytes.clone()),
                }
            }
            if bytes.len() < 1_200 && !kind.contains('-') {
                walks.push((kind.clone(), bytes.clone(), all));
            }
        }
        // A damage may leave a file sound; the faulty ones are wanted.
        let whole = kind == "of_65535_bytes" && sound || kind == "filled_to_65536_bytes";
        if kind.contains('-') || whole {
            let better = |old: &Vec<u8>| (sound, bytes.len()) < (read(old).is_ok(), old.len());
            if damaged.get(&kind).is_none_or(better) {
                damaged.insert(kind, bytes);
            }
        }
    }
    let mut chosen: BTreeMap<String, (Vec<u8>, String)> = BTreeMap::new();
    let mut used: BTreeSet<Vec<u8>> = BTreeSet::new();
    for (hit, list) in small.iter().filter(|(hit, _)| !left_to_walks(hit)) {
        // The one whose last step hits least besides, and that is not there yet.
        let shortest = |bytes: &Vec<u8>| {
            let schedule = last_step_measured(&shortened(&read(bytes).expect("sound"), hit));
            let before = hits(Schedule { measured: Vec::new(), ..schedule.clone() }.text().as_bytes());
            let new: Vec<String> = hits(schedule.text().as_bytes()).into_iter().filter(|h| h == hit || !before.contains(h)).collect();
            let text = schedule.text().into_bytes();
            (used.contains(&text), new.len(), text.len(), text, new)
        };
        let (_, _, _, text, new) = list.iter().filter(|b| size_of(b) <= 5 || list.len() < 4).map(shortest).min().expect("at least one");
        let also: Vec<String> = new.into_iter().filter(|other| other != hit).collect();
        let what = if also.is_empty() { String::new() } else { format!("; with it {}", in_words(&also)) };
        used.insert(text.clone());
        chosen.insert(hit.clone(), (text, format!("{}{}", hit.replace('_', " "), what)));
    }
    // Walks for the rest: each time the one that hits most of what is still missing.
    let (deep, walks): (Vec<_>, Vec<_>) = walks.into_iter().partition(|(kind, _, _)| kind == "depths");
    let mut missing: BTreeSet<String> = small.keys().filter(|hit| left_to_walks(hit)).cloned().collect();
    for number in 1.. {
        let news = |all: &BTreeSet<String>| all.intersection(&missing).cloned().collect::<Vec<_>>();
        let Some((kind, bytes, all)) = walks.iter().max_by_key(|(_, bytes, all)| (news(all).len(), usize::MAX - bytes.len())) else { break };
        let new = news(all);
        if new.is_empty() {
            break;
        }
        chosen.insert(format!("walk_{:02}_{}", number, kind), (bytes.clone(), format!("a whole walk: {}", in_words(&new))));
        new.iter().for_each(|hit| { missing.remove(hit); });
    }
    for hit in missing {
        let text = last_step_measured(&shortened(&read(&small[&hit][0]).expect("sound"), &hit)).text();
        chosen.insert(hit.clone(), (text.into_bytes(), hit.replace('_', " ")));
    }
    for kind in ["calm", "suspicious", "mixed", "stormy", "phases", "jumps"] {
        if let Some((_, bytes, all)) = walks.iter().filter(|(k, _, _)| k == kind).max_by_key(|(_, _, all)| all.len()) {
            chosen.insert(format!("walk_{}", kind), (bytes.clone(), format!("a whole walk with {} different hits", all.len())));
        }
    }
    // For each of the errors that look right three runs that show it, of groups of three to five. One run can
    // show many of the errors about what is sent again: for these all have other steps.
    let mut steps_shown: BTreeSet<String> = BTreeSet::new();
    for (name, error) in ERRORS.into_iter().filter(|(_, error)| !is_about_columns(*error)) {
        let mut shown: BTreeSet<(usize, Vec<u8>)> = BTreeSet::new();
        let walks = if is_about_depths(error) { &deep } else { &walks };
        for (_, bytes, _) in walks.iter().filter(|(_, bytes, _)| (3..=5).contains(&size_of(bytes)) && shows(error, bytes)).take(40) {
            let schedule = with_few_steps(&read(bytes).expect("sound"), &|candidate| shows(error, candidate.text().as_bytes()));
            let text = schedule.text().into_bytes();
            shown.insert((text.len(), text));
        }
        let steps_of = |text: &Vec<u8>| {
            let schedule = read(text).expect("sound");
            [schedule.warmup, schedule.measured].concat().iter().map(|step| format!("{}\n", step)).collect::<String>()
        };
        let another = shown.into_iter().filter(|(_, text)| !is_about_again(error) || steps_shown.insert(steps_of(text)));
        for (number, (_, text)) in (1..).zip(another.take(3)) {
            let what = format!("a run whose report is another one with the error {}", name);
            chosen.insert(format!("error_{}_{}", name.replace('-', "_"), number), (text, what));
        }
    }
    // Every damage of a whole file; every damage of a line once, on one kind of line after the other.
    let mut seen: BTreeMap<String, usize> = BTreeMap::new();
    for (kind, bytes) in &damaged {
        let (target, damage) = kind.split_once('-').unwrap_or(("file", kind));
        if target != "file" {
            let so_far = seen.entry(damage.to_string()).or_insert(0);
            *so_far += 1;
            if read(bytes).is_ok() || (*so_far + damage.len()) % 6 != 0 {
                continue;
            }
        }
        let name = if target == "file" { format!("form_{}", damage) } else { format!("form_{}_{}", target, damage) };
        let what = if target == "file" { damage.to_string() } else { format!("{}: {}", target, damage) };
        chosen.insert(name, (bytes.clone(), what.replace('_', " ")));
    }
    let mut table = String::from(HEAD);
    for (name, (bytes, what)) in &chosen {
        let report = answer(bytes, None, &mut Statistic::default(), false).report;
        for (ending, content) in [("schedule", &bytes[..]), ("report", report.as_bytes())] {
            let path = out.join(format!("{}.{}", name, ending));
            std::fs::write(&path, content).map_err(|e| format!("{}: {}", path.display(), e))?;
        }
        let line = report.lines().take(2).last().unwrap_or("");
        table += &format!("| `{}` | {} | `{}` |\n", name, what, line);
    }
    std::fs::write(out.join("README.md"), table).map_err(|e| e.to_string())?;
    println!("{} files chosen", chosen.len());
    Ok(true)
}
