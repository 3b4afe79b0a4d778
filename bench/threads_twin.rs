//! A plain simulator of SVCI images on the machine of several units, in Rust without proofs: the measure that the
//! proved `run` and `check` are held against. It has the same rules, reads the same images, and prints the same rows.
//! Each unit runs in a thread of its own, and takes its bursts of local turns outside the lock.
//!
//! `threads_twin run IMAGE UNITS EVENTS TRACE` runs an image with so many units and events at most, and writes the trace
//! where it isn't `-`. `threads_twin check IMAGE UNITS EVENTS TRACE` replays a trace.

mod history;
#[allow(dead_code, reason = "what the sequential twin alone needs")]
mod interpreter;
mod recorder;
mod versioned_bus;

use interpreter::{Image, arguments, summary};
use recorder::{Config, Event, Recorder, Refusal};
use std::sync::{Mutex, MutexGuard};
use std::{fs, hint, process, thread};

const MOST_BURST_TURNS: u32 = 63;
const MOST_TURNS: u32 = 10_000_000;

/// What the board shows: events, and tasks assigned, committed and squashed.
type Row = [u64; 4];

/// The machine under the one lock, and the board under one of its own.
struct SharedBus<'a> {
    recorder: Mutex<Recorder<'a>>,
    board: Mutex<Row>,
}

impl<'a> SharedBus<'a> {
    fn lock(&self) -> MutexGuard<'_, Recorder<'a>> {
        self.recorder.lock().expect("no thread panics")
    }

    fn row(&self) -> Row {
        *self.board.lock().expect("no thread panics")
    }

    fn apply(&self, unit: usize, event: Event) -> Result<(), Refusal> {
        let mut recorder = self.lock();
        let entry = recorder.apply(unit, event)?;
        let mut board = self.board.lock().expect("no thread panics");
        board[0] += 1;
        board[1] += u64::from(matches!(entry.kind, recorder::Kind::Assign(_)));
        board[2] += u64::from(matches!(entry.kind, recorder::Kind::Commit));
        board[3] += entry.cut.map_or(0, |cut| cut.tasks as u64);
        Ok(())
    }
}

/// How a turn of a unit's thread ended.
enum Turn {
    Went,
    Stalled,
    Left,
}

/// Waits a little, and longer each time.
struct Backoff(u32);

impl Backoff {
    fn snooze(&mut self) {
        if self.0 <= 6 {
            (0..1 << self.0).for_each(|_| hint::spin_loop());
        } else {
            thread::yield_now();
        }
        self.0 = (self.0 + 1).min(10);
    }
}

/// A unit's thread. Where the last turn stalled and the board shows the same row, it stalls again without the lock.
fn run_unit(bus: &SharedBus, unit: usize, image: &Image) {
    let mut backoff = Backoff(0);
    let mut stalled_at = None;
    for _ in 0..MOST_TURNS {
        let row = bus.row();
        if stalled_at == Some(row) {
            backoff.snooze();
            continue;
        }
        match take_turn(bus, unit, image) {
            Turn::Went => {
                stalled_at = None;
                backoff = Backoff(0);
            }
            Turn::Stalled => {
                stalled_at = Some(row);
                backoff.snooze();
            }
            Turn::Left => return,
        }
    }
}

fn take_turn(bus: &SharedBus, unit: usize, image: &Image) -> Turn {
    let glance = bus.lock().glance(unit);
    if glance.ended {
        return Turn::Left;
    }
    let event = match (glance.lease, glance.guess) {
        (Some(lease), _) if lease.core.done.is_none() => Event::Submit(lease.advance(image, MOST_BURST_TURNS)),
        (Some(_), _) if glance.is_head => Event::Commit,
        (None, Some(guess)) => Event::Assign(guess),
        _ => return Turn::Stalled,
    };
    let mut answer = bus.apply(unit, event);
    if let Err(Refusal::SetFull(word)) = answer {
        answer = bus.apply(unit, Event::Replace(word));
    }
    if answer == Err(Refusal::Pinned) { Turn::Stalled } else { Turn::Went }
}

fn run(image: &Image, config: Config) -> Recorder<'_> {
    let bus = SharedBus { recorder: Mutex::new(Recorder::new(image, config)), board: Mutex::default() };
    thread::scope(|scope| {
        for unit in 0..config.units {
            let bus = &bus;
            scope.spawn(move || run_unit(bus, unit, image));
        }
    });
    bus.recorder.into_inner().expect("no thread panics")
}

/// Replays a trace, and answers how many rows it has, or the first one that is wrong.
fn check(image: &Image, config: Config, trace: &str) -> Result<usize, usize> {
    let mut recorder = Recorder::new(image, config);
    let mut text = String::new();
    let mut rows = 0;
    for row in trace.strip_prefix(history::COLUMNS).ok_or(0usize)?.split_inclusive('\n') {
        let (unit, event) = event_of(&recorder, image, row).ok_or(rows)?;
        let entry = recorder.apply(unit, event).map_err(|_| rows)?;
        text.clear();
        history::write_row(&entry, &mut text);
        if text != row {
            return Err(rows);
        }
        rows += 1;
    }
    Ok(rows)
}

/// The event of a row.
fn event_of(recorder: &Recorder, image: &Image, row: &str) -> Option<(usize, Event)> {
    let mut fields = row.split(',');
    let kind = fields.next()?;
    let unit = fields.next()?.parse().ok()?;
    let argument = fields.next()?.parse();
    let event = match kind {
        "assign" => Event::Assign(argument.ok()?),
        "replace" => Event::Replace(argument.ok()?),
        "commit" => Event::Commit,
        "submit" => {
            let local: u32 = fields.next()?.parse().ok()?;
            let asked: u32 = fields.next()?.parse().ok()?;
            Event::Submit(recorder.lease(unit)?.advance(image, local + asked))
        }
        _ => return None,
    };
    Some((unit, event))
}

fn main() {
    let [mode, path, units, events, trace] = arguments("threads_twin run|check IMAGE UNITS EVENTS TRACE");
    let config = Config {
        units: units.parse().expect("a number of units"),
        sets: 16,
        ways: 2,
        events: events.parse().expect("a number of events"),
    };
    let image = Image::read(&fs::read(path).expect("the image is read")).expect("a sound image");
    if mode == "check" {
        match check(&image, config, &fs::read_to_string(trace).expect("the trace is read")) {
            Ok(rows) => println!("sound,{rows}"),
            Err(row) => {
                eprintln!("row {row} is wrong");
                process::exit(1);
            }
        }
        return;
    }
    let recorder = run(&image, config);
    if trace != "-" {
        fs::write(trace, history::trace(&recorder.entries)).expect("the trace is written");
    }
    print!("{}", summary(&recorder.output, recorder.commits, recorder.ending()));
    print!("{}", history::counts(&recorder.entries));
}
