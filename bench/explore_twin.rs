//! All schedules of an image, in Rust without proofs: the measure that `svc_explore` is held against. It has the machine of the
//! threads' twin, and copies it at each move.
//!
//! `explore_twin IMAGE UNITS SETS WAYS EVENTS BURST STATES FIND TRACE` prints how many standings there are, the moves that they have
//! and how deep they lie, whether a limit was met, and what can be seen: all, or where FIND isn't `-` the first row that it matches,
//! and writes the trace of a schedule that shows that where TRACE isn't `-`. It ends as the program does: with 2 where a limit
//! was met, or where FIND is given and matches nothing; with 1 where it matches nothing and a limit was met.

#[allow(dead_code, reason = "what other twins need")]
mod history;
#[allow(dead_code, reason = "what other twins need")]
mod interpreter;
#[allow(dead_code, reason = "what other twins need")]
mod recorder;
#[allow(dead_code, reason = "what other twins need")]
mod versioned_bus;

use interpreter::{Image, arguments};
use recorder::{Cause, Config, Entry, Event, Recorder, Refusal, Reply};
use std::collections::{BTreeMap, HashSet, VecDeque};
use std::fs;
use std::process::ExitCode;
use versioned_bus::Served;

/// What is seen, in the order of its rows: what happened (by its place in the list), the task, the word, the value, by what (its
/// place, and a task's number).
type Seen = (usize, u64, Option<u32>, Option<u64>, Option<(usize, u64)>);

const HAPPENINGS: [&str; 8] = ["begin", "load", "store", "output", "trap", "replace", "commit", "squash"];
const REASONS: [&str; 8] = ["hit", "reuse", "version", "spill", "committed", "memory", "violation", "guess"];

/// The unit's accepted move.
fn move_of(recorder: &mut Recorder, image: &Image, unit: usize, most: u32) -> Option<Entry> {
    let glance = recorder.glance(unit);
    if glance.ended {
        return None;
    }
    let event = match (glance.lease, glance.guess) {
        (None, Some(guess)) => Event::Assign(guess),
        (Some(lease), _) if lease.core.done.is_some() && glance.is_head => Event::Commit,
        (Some(lease), _) if lease.core.done.is_none() => Event::Submit(lease.advance(image, most)),
        _ => return None,
    };
    match recorder.apply(unit, event) {
        Err(Refusal::SetFull(word)) => recorder.apply(unit, Event::Replace(word)).ok(),
        done => done.ok(),
    }
}

/// The numbers of the tasks of all units: of one without a task, that of the next to begin.
fn numbers(recorder: &Recorder, units: usize) -> Vec<u64> {
    let active: Vec<usize> = recorder.tasks().map(|(unit, _, _)| unit).collect();
    let place = |unit| active.iter().position(|other| *other == unit).unwrap_or(active.len());
    (0..units).map(|unit| recorder.commits + place(unit) as u64).collect()
}

fn by(served: Served, numbers: &[u64]) -> (usize, u64) {
    match served {
        Served::Hit => (0, 0),
        Served::Reuse => (1, 0),
        Served::Version(unit) => (2, numbers[unit]),
        Served::Spill => (3, 0),
        Served::Committed(_) => (4, 0),
        Served::Memory => (5, 0),
    }
}

/// What an entry shows, by the numbers before it.
fn sights(entry: &Entry, numbers: &[u64], head: u64) -> Vec<Seen> {
    let task = numbers[entry.unit];
    let mut seen: Vec<Seen> = match entry.reply {
        Reply::Assigned(at) => vec![(0, task, None, Some(at.into()), None)],
        Reply::Ran => vec![],
        Reply::Loaded { word, value, served } => {
            vec![(1, task, Some(word), Some(value.into()), Some(by(served, numbers)))]
        }
        Reply::Stored { word, value, served } => {
            vec![(2, task, Some(word), Some(value.into()), served.map(|served| by(served, numbers)))]
        }
        Reply::Emitted(value) => vec![(3, task, None, Some(value.into()), None)],
        Reply::Trapped(number) => vec![(4, task, None, Some(number.into()), None)],
        Reply::Replaced(word) => vec![(5, task, Some(word), None, None)],
        Reply::Committed(_) => vec![(6, head, None, None, None)],
    };
    if let Some(cut) = entry.cut {
        let (word, why) = match (cut.cause, entry.reply) {
            (Cause::Violation, Reply::Stored { word, .. }) => (Some(word), 6),
            _ => (None, 7),
        };
        seen.push((7, cut.first, word, Some(cut.tasks as u64), Some((why, 0))));
    }
    seen
}

fn told<N: ToString>(number: Option<N>) -> String {
    number.map_or(String::new(), |number| number.to_string())
}

fn print_seen(seen: &Seen, steps: usize) {
    let (what, task, word, value, by) = *seen;
    let by = match by {
        None => String::new(),
        Some((2, task)) => format!("version:{task}"),
        Some((reason, _)) => REASONS[reason].to_string(),
    };
    println!("seen,{},{task},{},{},{by},{steps}", HAPPENINGS[what], told(word), told(value));
}

/// Whether the row is the first of those with this `WHAT`, `WHAT,TASK` or `WHAT,TASK,WORD`.
fn matches(find: &str, seen: &Seen) -> bool {
    let told = [HAPPENINGS[seen.0].to_string(), seen.1.to_string(), told(seen.2)];
    find.split(',').zip(told).all(|(asked, told)| asked.is_empty() || asked == told)
}

fn number<N: std::str::FromStr>(text: &str) -> N {
    text.parse().unwrap_or_else(|_| panic!("{text} is a number"))
}

fn main() -> ExitCode {
    let [path, units, sets, ways, events, burst, states, find, trace] =
        arguments("explore_twin IMAGE UNITS SETS WAYS EVENTS BURST STATES FIND TRACE");
    let config = Config { units: number(&units), sets: number(&sets), ways: number(&ways), events: number(&events) };
    let (burst, states): (u32, usize) = (number(&burst), number(&states));
    let image = Image::read(&fs::read(path).expect("the image is read")).expect("a sound image");
    // each history is of one entry: how many events may be accepted is counted by depths
    let first = Recorder::new(&image, Config { events: 2, ..config });
    let mut keys = HashSet::from([first.key()]);
    let mut queue = VecDeque::from([(first, Vec::new())]);
    let mut found: BTreeMap<Seen, Vec<Entry>> = BTreeMap::new();
    let (mut explored, mut moves, mut deepest, mut whole) = (0, 0_u64, 0, true);
    while let Some((there, path)) = queue.pop_front() {
        if explored == states || path.len() >= config.events {
            whole = false;
            break;
        }
        explored += 1;
        let numbers = numbers(&there, config.units);
        for unit in 0..config.units {
            let mut next = there.clone();
            let Some(entry) = move_of(&mut next, &image, unit, burst) else { continue };
            moves += 1;
            let mut path = path.clone();
            path.push(entry);
            for seen in sights(&entry, &numbers, there.commits) {
                found.entry(seen).or_insert_with(|| path.clone());
            }
            next.entries.clear();
            if keys.insert(next.key()) {
                deepest = path.len();
                queue.push_back((next, path));
            }
        }
    }
    if find != "-" {
        found.retain(|seen, _| matches(&find, seen));
        if found.is_empty() && !whole {
            return ExitCode::from(1);
        }
    }
    println!("states,{}\nmoves,{moves}\ndeepest,{deepest}\nwhole,{}", keys.len(), if whole { "yes" } else { "no" });
    for (seen, path) in &found {
        print_seen(seen, path.len());
        if find != "-" {
            if trace != "-" {
                fs::write(trace, history::trace(path)).expect("the trace is written");
            }
            return ExitCode::SUCCESS;
        }
    }
    ExitCode::from(if whole && find == "-" { 0 } else { 2 })
}
