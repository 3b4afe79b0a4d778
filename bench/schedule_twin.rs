//! A plain simulator of SVCI images by schedules, in Rust without proofs: the measure that the proved `run --schedule` is
//! held against, and the maker of what its cases want. It has the machine of the threads' twin, and one thread.
//!
//! `schedule_twin IMAGE UNITS SETS WAYS EVENTS TURNS POLICY SEED BURST TRACE SCRIPT` runs an image by the policy, by bursts of
//! so many turns at most, and writes the trace where it isn't `-`. The seed is that of `random`. The events of the script come
//! first where it isn't `-`; it has no cancel.

mod history;
#[allow(dead_code, reason = "what the sequential twin alone needs")]
mod interpreter;
#[allow(dead_code, reason = "what the threads' twin alone needs")]
mod recorder;
mod versioned_bus;

use interpreter::{Image, arguments, summary};
use recorder::{Config, Event, Recorder, Refusal};
use std::fs;

const MOST_UNITS: usize = 16;

/// PCG32 by its reference: the word is taken from the state before the step.
struct Generator {
    state: u64,
    increment: u64,
}

impl Generator {
    fn new(seed: u64, stream: u64) -> Generator {
        let mut generator = Generator { state: 0, increment: stream << 1 | 1 };
        generator.next();
        generator.state = generator.state.wrapping_add(seed);
        generator.next();
        generator
    }

    fn next(&mut self) -> u32 {
        let old = self.state;
        self.state = old.wrapping_mul(6_364_136_223_846_793_005).wrapping_add(self.increment);
        let shifted = ((old >> 18 ^ old) >> 27) as u32;
        shifted.rotate_right((old >> 59) as u32)
    }
}

/// In which order the units are asked.
enum Policy {
    Rotate,
    Oldest,
    Youngest,
    Random(Generator),
}

impl Policy {
    fn named(name: &str, seed: u32) -> Option<Policy> {
        match name {
            "rotate" => Some(Policy::Rotate),
            "oldest" => Some(Policy::Oldest),
            "youngest" => Some(Policy::Youngest),
            "random" => Some(Policy::Random(Generator::new(u64::from(seed), 0))),
            _ => None,
        }
    }

    /// The order of a step, in the first places of the array.
    fn order(&mut self, recorder: &Recorder, units: usize, order: &mut [usize; MOST_UNITS]) {
        let order = &mut order[..units];
        let first = match self {
            Policy::Rotate => recorder.entries.last().map_or(0, |entry| (entry.unit + 1) % units),
            Policy::Random(generator) => generator.next() as usize % units,
            Policy::Oldest | Policy::Youngest => 0,
        };
        for (place, unit) in order.iter_mut().enumerate() {
            *unit = if first + place < units { first + place } else { first + place - units };
        }
        let age = |unit: &usize| recorder.lease(*unit).map_or(u64::MAX, |lease| lease.epoch);
        match self {
            Policy::Oldest => order.sort_by_key(age),
            Policy::Youngest => order.sort_by_key(|unit| u64::MAX - age(unit)),
            Policy::Rotate | Policy::Random(_) => {}
        }
    }
}

/// The units, and the assignment of each whose task waits to be the head since its line is pinned.
struct Units<'a> {
    image: &'a Image,
    most: u32,
    pinned: [Option<u64>; MOST_UNITS],
}

impl Units<'_> {
    /// Asks for the unit's move, and answers whether it was accepted.
    fn moves(&mut self, recorder: &mut Recorder, unit: usize) -> bool {
        let glance = recorder.glance(unit);
        let event = match (glance.lease, glance.guess) {
            (None, Some(guess)) => Event::Assign(guess),
            (Some(lease), _) if lease.core.done.is_some() && glance.is_head => Event::Commit,
            (Some(lease), _) if lease.core.done.is_none() => {
                if self.pinned[unit] == Some(lease.epoch) && !glance.is_head {
                    return false;
                }
                Event::Submit(lease.advance(self.image, self.most))
            }
            _ => return false,
        };
        match recorder.apply(unit, event) {
            Ok(_) => true,
            Err(Refusal::SetFull(word)) => {
                let replaced = recorder.apply(unit, Event::Replace(word));
                if replaced == Err(Refusal::Pinned) {
                    self.pinned[unit] = glance.lease.map(|lease| lease.epoch);
                }
                replaced.is_ok()
            }
            Err(_) => false,
        }
    }
}

/// Applies the event of a script's row. A refused one is passed over.
fn apply_row(recorder: &mut Recorder, image: &Image, row: &str) {
    let [kind, unit, arg] = row.split(',').collect::<Vec<_>>()[..] else { panic!("{row} has three fields") };
    let unit = number(unit);
    let event = match kind {
        "assign" => Event::Assign(number(arg)),
        "submit" => match recorder.lease(unit) {
            Some(lease) => Event::Submit(lease.advance(image, number(arg))),
            None => return,
        },
        "replace" => Event::Replace(number(arg)),
        "commit" => Event::Commit,
        _ => panic!("{kind} is an event of this twin"),
    };
    let _answer = recorder.apply(unit, event);
}

fn run<'a>(image: &'a Image, config: Config, script: &str, turns: u32, mut policy: Policy, most: u32) -> Recorder<'a> {
    let mut recorder = Recorder::new(image, config);
    for row in script.lines().skip(1) {
        apply_row(&mut recorder, image, row);
    }
    let mut units = Units { image, most, pinned: [None; MOST_UNITS] };
    let mut order = [0; MOST_UNITS];
    for _ in 0..turns {
        if recorder.has_ended() {
            break;
        }
        policy.order(&recorder, config.units, &mut order);
        let moved = order[..config.units].iter().any(|unit| units.moves(&mut recorder, *unit));
        assert!(moved, "each step of a run that goes on makes an event");
    }
    recorder
}

fn number<N: std::str::FromStr>(text: &str) -> N {
    text.parse().unwrap_or_else(|_| panic!("{text} is a number"))
}

fn main() {
    let [path, units, sets, ways, events, turns, policy, seed, burst, trace, script] =
        arguments("schedule_twin IMAGE UNITS SETS WAYS EVENTS TURNS POLICY SEED BURST TRACE SCRIPT");
    let config = Config { units: number(&units), sets: number(&sets), ways: number(&ways), events: number(&events) };
    let policy = Policy::named(&policy, number(&seed)).expect("a policy");
    let image = Image::read(&fs::read(path).expect("the image is read")).expect("a sound image");
    let script = if script == "-" { String::new() } else { fs::read_to_string(script).expect("the script is read") };
    let recorder = run(&image, config, &script, number(&turns), policy, number(&burst));
    if trace != "-" {
        fs::write(trace, history::trace(&recorder.entries)).expect("the trace is written");
    }
    print!("{}", summary(&recorder.output, recorder.commits, recorder.ending()));
    print!("{}", history::counts(&recorder.entries));
}
