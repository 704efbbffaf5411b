// An implementation of document 01 and requests 2026-01, 2026-03, 2026-05 and 2026-06 that shares nothing
// with the proved one, to hold the two against each other: it answers schedule files, makes them, and
// compares two sets of answers. Standard library only; the rules are in rules.rs, the file form in schedule.rs.

mod choose;
mod generate;
mod rules;
mod schedule;

use rules::{Error, ERRORS};
use schedule::{answer, Statistic};
use std::collections::BTreeMap;
use std::io::{self, BufWriter, Read, Write};
use std::path::{Path, PathBuf};
use std::process::ExitCode;

const USE: &str = "\
independent report [FILE]             the report of the schedule on standard input or in FILE
independent answers FILE..            for each file a line with its name and then its report; the statistic to standard error
independent generate COUNT SEED DIR   write COUNT schedule files into DIR, the same ones for the same seed
independent compare DIR ANSWERS KEEP  answer the files of DIR and compare with ANSWERS, the other program's answers to them;
                                      the first file that differs is kept in the folder KEEP
independent hits FILE..               for each file a line with its name and all that it hits
independent choose DIR OUT            choose, shorten and name files of DIR for a folder of test vectors
--error NAME                          with an error that looks right; NAME is one of
                                      counts-receptions, back-in-phase-1, hands-over-before-storing,
                                      f-after-adopting, pause-empties-tallies,
                                      recovery-not-counted-after-a-pause, recoveries-lost-at-a-crash,
                                      depth-before-the-step, repeats-deepen, cut-loses-depth,
                                      idle-deepens, depth-of-the-undecided, again-not-counted, cut-counts,
                                      first-counts-as-again, again-after-writing, sent-without-repeats,
                                      column-one-too-small, column-of-the-number,
                                      column-0-for-a-missing-line, count-at-the-line, end-at-the-last-byte
";

type Failure = String;

/// The schedule files of a folder, in order of name.
fn schedules(folder: &Path) -> Result<Vec<PathBuf>, Failure> {
    let entries = std::fs::read_dir(folder).map_err(|e| format!("{}: {}", folder.display(), e))?;
    let mut files: Vec<PathBuf> = entries.filter_map(|entry| entry.ok().map(|entry| entry.path())).collect();
    files.retain(|file| file.extension().is_some_and(|e| e == "schedule"));
    files.sort();
    Ok(files)
}

/// What must not be, said loudly.
fn complain(name: &str, complaints: &[String], so_far: &mut u64) {
    for complaint in complaints {
        *so_far += 1;
        if *so_far <= 5 {
            eprintln!("*** NOT SAFE *** {}: {}", name, complaint);
        }
    }
}

fn report(file: Option<&String>, error: Option<Error>) -> Result<bool, Failure> {
    let mut bytes = Vec::new();
    match file {
        Some(file) => bytes = std::fs::read(file).map_err(|e| format!("{}: {}", file, e))?,
        None => {
            io::stdin().read_to_end(&mut bytes).map_err(|e| e.to_string())?;
        }
    }
    let answer = answer(&bytes, error, &mut Statistic::default(), false);
    io::stdout().write_all(answer.report.as_bytes()).map_err(|e| e.to_string())?;
    let mut unsafe_runs = 0;
    complain("this run", &answer.complaints, &mut unsafe_runs);
    Ok(unsafe_runs == 0 && !answer.report.starts_with("BAD"))
}

fn answers(files: &[String], error: Option<Error>, hits: bool) -> Result<bool, Failure> {
    let mut statistic = Statistic::default();
    let mut complaints = 0;
    let mut out = BufWriter::new(io::stdout());
    for file in files {
        let text = match std::fs::read(file) {
            Err(_) => format!("{}: cannot be read\n", file),
            Ok(bytes) => {
                let answer = answer(&bytes, error, &mut statistic, hits);
                complain(file, &answer.complaints, &mut complaints);
                if hits {
                    format!("{}: {}\n", file, answer.hits.into_iter().collect::<Vec<_>>().join(" "))
                } else {
                    format!("{}\n{}", file, answer.report)
                }
            }
        };
        out.write_all(text.as_bytes()).map_err(|e| e.to_string())?;
    }
    out.flush().map_err(|e| e.to_string())?;
    eprint!("{}", statistic.text());
    if complaints > 0 {
        eprintln!("*** NOT SAFE *** {} complaints in all", complaints);
    }
    Ok(complaints == 0)
}

fn generate(count: u64, seed: u64, folder: &Path) -> Result<bool, Failure> {
    std::fs::create_dir_all(folder).map_err(|e| format!("{}: {}", folder.display(), e))?;
    for index in 1..=count {
        let (kind, bytes) = generate::file(index, seed);
        let path = folder.join(format!("{:06}-{}.schedule", index, kind));
        std::fs::write(&path, bytes).map_err(|e| format!("{}: {}", path.display(), e))?;
    }
    Ok(true)
}

/// The first lines of a text, each behind a margin.
fn shortly(text: &str) -> String {
    let mut out: String = text.lines().take(20).map(|line| format!("    {}\n", line)).collect();
    if text.lines().count() > 20 {
        out += "    ..\n";
    }
    out
}

fn compare(folder: &Path, theirs: &Path, keep: &Path, error: Option<Error>) -> Result<bool, Failure> {
    let files = schedules(folder)?;
    let name_of = |file: &PathBuf| file.file_name().unwrap_or_default().to_string_lossy().into_owned();
    let text = std::fs::read(theirs).map_err(|e| format!("{}: {}", theirs.display(), e))?;
    let text = String::from_utf8_lossy(&text);
    // A line that is the name of a file begins the answer to that file.
    let mut given: BTreeMap<String, Option<String>> = files.iter().map(|file| (name_of(file), None)).collect();
    let mut now: Option<String> = None;
    let mut astray = String::new();
    for line in text.split_inclusive('\n') {
        match given.get_mut(line.trim_end_matches('\n')) {
            Some(answer @ None) => {
                *answer = Some(String::new());
                now = Some(line.trim_end_matches('\n').to_string());
            }
            _ => match now.as_ref().and_then(|name| given.get_mut(name)) {
                Some(Some(answer)) => answer.push_str(line),
                _ => astray += line,
            },
        }
    }
    let mut statistic = Statistic::default();
    let (mut passed, mut failed, mut complaints) = (0u64, 0u64, 0u64);
    for (place, file) in (1..).zip(&files) {
        let bytes = std::fs::read(file).map_err(|e| format!("{}: {}", file.display(), e))?;
        let mine = answer(&bytes, error, &mut statistic, false);
        complain(&name_of(file), &mine.complaints, &mut complaints);
        let other = given.get(&name_of(file)).cloned().flatten();
        if other.as_ref() == Some(&mine.report) {
            passed += 1;
            continue;
        }
        failed += 1;
        if failed == 1 {
            let kept = keep.join(name_of(file));
            std::fs::write(&kept, &bytes).map_err(|e| format!("{}: {}", kept.display(), e))?;
            println!("first difference: file {} of {}, kept as {}", place, files.len(), kept.display());
            println!("  independent:\n{}", shortly(&mine.report));
            println!("  the program:\n{}", other.as_deref().map_or("    no answer\n".to_string(), shortly));
        }
    }
    if !astray.is_empty() {
        failed += 1;
        println!("lines that belong to no file:\n{}", shortly(&astray));
    }
    print!("{}", statistic.text());
    println!("safety: {}", if complaints == 0 { "held in all runs".to_string() } else { format!("{} complaints", complaints) });
    if complaints > 0 {
        eprintln!("*** NOT SAFE *** {} complaints in all", complaints);
    }
    println!("{} passed, {} failed", passed, failed);
    Ok(failed == 0 && passed > 0 && complaints == 0)
}

/// The command from its words; an error is wrong use where it is None.
fn run(words: &[String], error: Option<Error>) -> Option<Result<bool, Failure>> {
    let (command, rest) = words.split_first()?;
    match (command.as_str(), rest) {
        ("report", []) => Some(report(None, error)),
        ("report", [file]) => Some(report(Some(file), error)),
        ("answers", files) if !files.is_empty() => Some(answers(files, error, false)),
        ("hits", files) if !files.is_empty() => Some(answers(files, error, true)),
        ("generate", [count, seed, folder]) => {
            Some(generate(count.parse().ok()?, seed.parse().ok()?, Path::new(folder)))
        }
        ("compare", [folder, theirs, keep]) => Some(compare(Path::new(folder), Path::new(theirs), Path::new(keep), error)),
        ("choose", [folder, out]) => Some(schedules(Path::new(folder)).and_then(|files| choose::choose(&files, Path::new(out)))),
        _ => None,
    }
}

fn main() -> ExitCode {
    let mut words: Vec<String> = std::env::args().skip(1).collect();
    let mut error = None;
    let mut wrong = false;
    if let Some(place) = words.iter().position(|word| word == "--error") {
        let name = words.get(place + 1).cloned().unwrap_or_default();
        error = ERRORS.iter().find(|(known, _)| *known == name).map(|(_, error)| *error);
        wrong = error.is_none();
        words.drain(place..(place + 2).min(words.len()));
    }
    match if wrong { None } else { run(&words, error) } {
        Some(Ok(true)) => ExitCode::SUCCESS,
        Some(Ok(false)) => ExitCode::from(1),
        Some(Err(failure)) => {
            eprintln!("independent: {}", failure);
            ExitCode::from(2)
        }
        None => {
            eprint!("{}", USE);
            ExitCode::from(2)
        }
    }
}
