//! The texts of the threads' twin: the rows of a trace, and the counts of a summary.

use crate::recorder::{Cause, Entry, Kind, Reply};
use crate::versioned_bus::Served;
use std::fmt::Write;

pub const COLUMNS: &str = "kind,unit,arg,local,ask,reply,addr,word,served,from,cause,first,squashed\n";

/// Writes an entry's row to a text.
pub fn write_row(entry: &Entry, text: &mut String) {
    let unit = entry.unit;
    let written = match entry.kind {
        Kind::Assign(guess) => write!(text, "assign,{unit},{guess},,,"),
        Kind::Submit { local, asks } => write!(text, "submit,{unit},,{local},{},", u32::from(asks)),
        Kind::Replace => match entry.reply {
            Reply::Replaced(word) => write!(text, "replace,{unit},{word},,,"),
            _ => unreachable!("a replacement replaces"),
        },
        Kind::Commit => write!(text, "commit,{unit},,,,"),
    };
    written.expect("a text takes what is written");
    let written = match entry.reply {
        Reply::Assigned(at) => write!(text, "assigned,,{at},"),
        Reply::Ran => write!(text, "ran,,,"),
        Reply::Loaded { word, value, .. } => write!(text, "loaded,{word},{value},"),
        Reply::Stored { word, value, .. } => write!(text, "stored,{word},{value},"),
        Reply::Emitted(value) => write!(text, "emitted,,{value},"),
        Reply::Trapped(number) => write!(text, "trapped,,{number},"),
        Reply::Replaced(word) => write!(text, "replaced,{word},,"),
        Reply::Committed(task) => write!(text, "committed,,{task},"),
    };
    written.expect("a text takes what is written");
    let written = match served(entry) {
        None => write!(text, ",,"),
        Some(Served::Hit) => write!(text, "hit,,"),
        Some(Served::Reuse) => write!(text, "reuse,,"),
        Some(Served::Version(unit)) => write!(text, "version,{unit},"),
        Some(Served::Spill) => write!(text, "spill,,"),
        Some(Served::Committed(unit)) => write!(text, "committed,{unit},"),
        Some(Served::Memory) => write!(text, "memory,,"),
    };
    written.expect("a text takes what is written");
    let written = match entry.cut {
        None => writeln!(text, ",,"),
        Some(cut) => writeln!(text, "{},{},{}", cause(cut.cause), cut.first, cut.tasks),
    };
    written.expect("a text takes what is written");
}

fn cause(cause: Cause) -> &'static str {
    match cause {
        Cause::Violation => "violation",
        Cause::Guess => "guess",
    }
}

fn served(entry: &Entry) -> Option<Served> {
    match entry.reply {
        Reply::Loaded { served, .. } => Some(served),
        Reply::Stored { served, .. } => served,
        _ => None,
    }
}

/// The text of a history.
pub fn trace(entries: &[Entry]) -> String {
    let mut text = String::with_capacity(48 * entries.len());
    text.push_str(COLUMNS);
    for entry in entries {
        write_row(entry, &mut text);
    }
    text
}

const COUNTS: [&str; 14] = [
    "kind-assign",
    "kind-submit",
    "kind-replace",
    "kind-cancel",
    "kind-commit",
    "served-hit",
    "served-reuse",
    "served-version",
    "served-spill",
    "served-committed",
    "served-memory",
    "cut-violation",
    "cut-guess",
    "cut-cancel",
];

/// The counts that an entry goes into, by their places among all.
fn counted(entry: &Entry) -> impl Iterator<Item = usize> {
    let kind = match entry.kind {
        Kind::Assign(_) => 0,
        Kind::Submit { .. } => 1,
        Kind::Replace => 2,
        Kind::Commit => 4,
    };
    let served = served(entry).map(|served| match served {
        Served::Hit => 5,
        Served::Reuse => 6,
        Served::Version(_) => 7,
        Served::Spill => 8,
        Served::Committed(_) => 9,
        Served::Memory => 10,
    });
    let cause = entry.cut.map(|cut| match cut.cause {
        Cause::Violation => 11,
        Cause::Guess => 12,
    });
    [Some(kind), served, cause].into_iter().flatten()
}

/// The rows of the counts.
pub fn counts(entries: &[Entry]) -> String {
    let mut numbers = [0; COUNTS.len()];
    for place in entries.iter().flat_map(counted) {
        numbers[place] += 1;
    }
    COUNTS.iter().zip(numbers).map(|(name, number)| format!("{name},{number}\n")).collect()
}
