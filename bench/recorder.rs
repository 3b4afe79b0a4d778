//! The machine of the threads' twin with its history: one event at a time, refused by the table of refusals.
//!
//! Two cases of that table can't come from a twin, and aren't tested: a burst of another image's text, since all units
//! lend one image, and a cancel, which no unit asks for.

use crate::interpreter::{End, Ending, Image, Memory, Task, Width};
use crate::versioned_bus::{Bus, Served};

const MOST_BURST_TURNS: u32 = 63;

/// The numbers of a machine.
#[derive(Clone, Copy)]
pub struct Config {
    pub units: usize,
    pub sets: u32,
    pub ways: u32,
    pub events: usize,
}

/// What a turn asks of the machine.
#[derive(Clone, Copy)]
pub enum Ask {
    Load { width: Width, address: u32, register: usize },
    Store { width: Width, address: u32, value: u32 },
    Emit(u32),
}

enum Stop {
    Ends(End),
    Asks(Ask),
}

impl From<End> for Stop {
    fn from(end: End) -> Stop {
        Stop::Ends(end)
    }
}

/// The memory of a burst, which asks for each access.
struct Asking;

impl Memory for Asking {
    type Stop = Stop;

    fn load(&mut self, width: Width, address: u32, register: usize) -> Result<u32, Stop> {
        Err(Stop::Asks(Ask::Load { width, address, register }))
    }

    fn store(&mut self, width: Width, address: u32, value: u32) -> Result<(), Stop> {
        Err(Stop::Asks(Ask::Store { width, address, value }))
    }

    fn emit(&mut self, value: u32) -> Result<(), Stop> {
        Err(Stop::Asks(Ask::Emit(value)))
    }
}

/// Where a task stands, and how it has ended.
#[derive(Clone, Copy, PartialEq)]
pub struct Core {
    task: Task,
    pub done: Option<End>,
}

/// A unit's leave to run its task on without the lock.
#[derive(Clone, Copy)]
pub struct Lease {
    pub epoch: u64,
    pub core: Core,
}

/// Local turns of a task, and what its next turn asks.
pub struct Burst {
    epoch: u64,
    start: Core,
    end: Core,
    pub local: u32,
    pub ask: Option<Ask>,
}

impl Lease {
    /// Takes local turns, so many at most with the one that asks.
    pub fn advance(self, image: &Image, most: u32) -> Burst {
        let mut core = self.core;
        let mut local = 0;
        let mut ask = None;
        while local < most.min(MOST_BURST_TURNS) && core.done.is_none() {
            match core.task.turn(image, &mut Asking) {
                Ok(()) if core.task.is_at_entry(image) => core.done = Some(End::Next(core.task.pc)),
                Ok(()) => {}
                Err(Stop::Ends(end)) => core.done = Some(end),
                Err(Stop::Asks(asked)) => {
                    ask = Some(asked);
                    break;
                }
            }
            local += 1;
        }
        Burst { epoch: self.epoch, start: self.core, end: core, local, ask }
    }
}

/// One event of a unit.
pub enum Event {
    Assign(u32),
    Submit(Burst),
    Replace(u32),
    Commit,
}

#[derive(Clone, Copy, Debug, PartialEq)]
pub enum Refusal {
    NoSuchUnit,
    Busy,
    Idle,
    Stale,
    NotEntry,
    Stopped,
    Done,
    SetFull(u32),
    NotResident,
    Pinned,
    HeadNotDone,
    NoTask,
    HistoryFull,
    EmptyBurst,
}

/// What an event was.
#[derive(Clone, Copy, PartialEq)]
pub enum Kind {
    Assign(u32),
    Submit { local: u32, asks: bool },
    Replace,
    Commit,
}

/// What an event did.
#[derive(Clone, Copy, PartialEq)]
pub enum Reply {
    Assigned(u32),
    Ran,
    Loaded { word: u32, value: u32, served: Served },
    Stored { word: u32, value: u32, served: Option<Served> },
    Emitted(u32),
    Trapped(u32),
    Replaced(u32),
    Committed(u64),
}

#[derive(Clone, Copy, PartialEq)]
pub enum Cause {
    Violation,
    Guess,
}

/// The tasks that an event squashed: why, the first and how many.
#[derive(Clone, Copy, PartialEq)]
pub struct Cut {
    pub cause: Cause,
    pub first: u64,
    pub tasks: usize,
}

/// An entry of the history.
#[derive(Clone, Copy, PartialEq)]
pub struct Entry {
    pub kind: Kind,
    pub unit: usize,
    pub reply: Reply,
    pub cut: Option<Cut>,
}

/// The task of a unit, the place of its entry in the table, and the words that wait for its commit.
#[derive(Clone)]
struct Seat {
    unit: usize,
    epoch: u64,
    entry: usize,
    core: Core,
    waiting: Vec<u32>,
}

/// What a unit's thread needs to know for its next event.
pub struct Glance {
    pub ended: bool,
    pub lease: Option<Lease>,
    pub is_head: bool,
    pub guess: Option<u32>,
}

/// The machine and its history.
#[derive(Clone)]
pub struct Recorder<'a> {
    image: &'a Image,
    config: Config,
    bus: Bus,
    /// The active tasks, the oldest first.
    seats: Vec<Seat>,
    /// The entry after the last committed task that began at each one of the table.
    successors: Vec<Option<u32>>,
    due: u32,
    stopped: Option<End>,
    epoch: u64,
    pub commits: u64,
    pub output: Vec<u32>,
    pub entries: Vec<Entry>,
}

impl<'a> Recorder<'a> {
    pub fn new(image: &'a Image, config: Config) -> Recorder<'a> {
        Recorder {
            image,
            config,
            bus: Bus::new(config.units, config.sets, config.ways, image.data.clone()),
            seats: Vec::with_capacity(config.units),
            successors: vec![None; image.table.len()],
            due: image.start,
            stopped: None,
            epoch: 0,
            commits: 0,
            output: Vec::new(),
            entries: Vec::with_capacity(config.events),
        }
    }

    /// The unit, the entry and the turns of each active task, the oldest first.
    pub fn tasks(&self) -> impl Iterator<Item = (usize, usize, u32)> {
        self.seats.iter().map(|seat| (seat.unit, seat.entry, seat.core.task.count))
    }

    /// What tells where a machine stands apart from another, but for which unit is which: the commits, the tasks, and what
    /// shows of the bus.
    pub fn key(&self) -> Vec<u64> {
        let mut key = vec![self.commits, self.seats.len() as u64];
        key.extend(self.tasks().flat_map(|(_, entry, turns)| [entry as u64, u64::from(turns)]));
        self.bus.add_key(&mut key);
        key
    }

    fn place(&self, unit: usize) -> Option<usize> {
        self.seats.iter().position(|seat| seat.unit == unit)
    }

    fn is_head(&self, unit: usize) -> bool {
        self.seats.first().is_some_and(|seat| seat.unit == unit)
    }

    fn is_full(&self) -> bool {
        self.entries.len() >= self.config.events
    }

    /// The entry at which the next task should begin.
    fn guess(&self) -> Option<u32> {
        match (self.seats.last(), self.stopped) {
            (Some(Seat { core: Core { done: Some(End::Next(entry)), .. }, .. }), _) => Some(*entry),
            (Some(youngest), _) => {
                let table = &self.image.table;
                let next = table[(youngest.entry + 1) % table.len()];
                Some(self.successors[youngest.entry].unwrap_or(next))
            }
            (None, None) => Some(self.due),
            (None, Some(_)) => None,
        }
    }

    pub fn lease(&self, unit: usize) -> Option<Lease> {
        let seat = &self.seats[self.place(unit)?];
        Some(Lease { epoch: seat.epoch, core: seat.core })
    }

    /// No further event is accepted.
    pub fn has_ended(&self) -> bool {
        self.stopped.is_some() || self.is_full()
    }

    pub fn glance(&self, unit: usize) -> Glance {
        Glance {
            ended: self.has_ended(),
            lease: self.lease(unit),
            is_head: self.is_head(unit),
            guess: self.guess(),
        }
    }

    pub fn ending(&self) -> Ending {
        match self.stopped {
            Some(End::Exit(code)) => Ending::Exit(code),
            Some(End::Trap(number)) => Ending::Trap(number),
            _ if self.is_full() => Ending::Full(self.due),
            _ => Ending::Open(self.due),
        }
    }

    /// One event. An accepted one appends its entry, and a refused one changes nothing.
    pub fn apply(&mut self, unit: usize, event: Event) -> Result<Entry, Refusal> {
        if unit >= self.config.units {
            return Err(Refusal::NoSuchUnit);
        }
        let (kind, reply, cut) = match event {
            Event::Assign(guess) => (Kind::Assign(guess), self.assign(unit, guess)?, None),
            Event::Submit(burst) => {
                let (reply, cut) = self.submit(unit, &burst)?;
                (Kind::Submit { local: burst.local, asks: burst.ask.is_some() }, reply, cut)
            }
            Event::Replace(word) => (Kind::Replace, self.replace(unit, word)?, None),
            Event::Commit => {
                let (reply, cut) = self.commit()?;
                (Kind::Commit, reply, cut)
            }
        };
        let entry = Entry { kind, unit, reply, cut };
        self.entries.push(entry);
        Ok(entry)
    }

    fn refuse_if_full(&self) -> Result<(), Refusal> {
        if self.is_full() { Err(Refusal::HistoryFull) } else { Ok(()) }
    }

    fn assign(&mut self, unit: usize, guess: u32) -> Result<Reply, Refusal> {
        if self.place(unit).is_some() {
            return Err(Refusal::Busy);
        }
        let begin = if self.seats.is_empty() { self.due } else { guess };
        let entry = self.image.table.binary_search(&begin).map_err(|_| Refusal::NotEntry)?;
        if self.stopped.is_some() {
            return Err(Refusal::Stopped);
        }
        self.refuse_if_full()?;
        let core = Core { task: Task::new(self.image, begin), done: None };
        self.seats.push(Seat { unit, epoch: self.epoch, entry, core, waiting: Vec::new() });
        self.epoch += 1;
        self.bus.begin(unit);
        Ok(Reply::Assigned(begin))
    }

    fn submit(&mut self, unit: usize, burst: &Burst) -> Result<(Reply, Option<Cut>), Refusal> {
        let place = self.place(unit).ok_or(Refusal::Idle)?;
        let seat = &self.seats[place];
        if burst.epoch != seat.epoch || burst.start != seat.core {
            return Err(Refusal::Stale);
        }
        if seat.core.done.is_some() {
            return Err(Refusal::Done);
        }
        if let Some(Ask::Load { width, address, .. } | Ask::Store { width, address, .. }) = burst.ask
            && let Ok((word, _)) = width.place(address, self.image.data.len())
            && let Some(first) = self.bus.set_full(unit, word as u32)
        {
            return Err(Refusal::SetFull(first));
        }
        self.refuse_if_full()?;
        if burst.local == 0 && burst.ask.is_none() {
            return Err(Refusal::EmptyBurst);
        }
        let count = self.seats.len();
        self.seats[place].core = burst.end;
        let (reply, cut) = match burst.ask {
            Some(ask) => self.do_asked(place, ask),
            None => (Reply::Ran, None),
        };
        let wrong = self.seats[place].core.done.and_then(|end| self.settle(place, end, count));
        Ok((reply, wrong.or(cut)))
    }

    /// Of a task at a place that ended so, drops the seats after it where the next one was guessed wrongly. The cut counts
    /// them among so many, those that the same event has dropped before too.
    fn settle(&mut self, place: usize, end: End, count: usize) -> Option<Cut> {
        let next = place + 1;
        let began = self.image.table[self.seats.get(next)?.entry];
        if matches!(end, End::Next(entry) if entry == began) {
            return None;
        }
        self.bus.squash_from(next);
        Some(self.cut(Cause::Guess, next, count))
    }

    /// The asked turn of the task at a place.
    fn do_asked(&mut self, place: usize, ask: Ask) -> (Reply, Option<Cut>) {
        let done = match ask {
            Ask::Emit(value) => Ok((self.emit(place, value), None)),
            Ask::Load { width, address, register } => {
                self.load(place, width, address, register).map(|reply| (reply, None))
            }
            Ask::Store { width, address, value } => self.store(place, width, address, value),
        };
        let core = &mut self.seats[place].core;
        let (reply, victim) = match done {
            Ok(done) => done,
            Err(number) => {
                core.done = Some(End::Trap(number));
                return (Reply::Trapped(number), None);
            }
        };
        core.task.pc = core.task.pc.wrapping_add(4);
        if core.task.is_at_entry(self.image) {
            core.done = Some(End::Next(core.task.pc));
        }
        let count = self.seats.len();
        (reply, victim.map(|victim| self.cut(Cause::Violation, victim, count)))
    }

    fn emit(&mut self, place: usize, value: u32) -> Reply {
        let seat = &mut self.seats[place];
        seat.waiting.push(value);
        seat.core.task.emitted += 1;
        Reply::Emitted(value)
    }

    /// Loads a value, or answers the number of the trap.
    fn load(&mut self, place: usize, width: Width, address: u32, register: usize) -> Result<Reply, u32> {
        let (word, shift) = width.place(address, self.image.data.len())?;
        let word = word as u32;
        let seat = &mut self.seats[place];
        let (whole, served) = self.bus.read(seat.unit, word);
        let value = width.loaded(whole, shift);
        seat.core.task.set(register, value);
        Ok(Reply::Loaded { word, value, served })
    }

    /// Stores a value, and answers the place of the victim too, or else the number of the trap.
    fn store(&mut self, place: usize, width: Width, address: u32, value: u32) -> Result<(Reply, Option<usize>), u32> {
        let (word, shift) = width.place(address, self.image.data.len())?;
        let word = word as u32;
        let unit = self.seats[place].unit;
        let (value, served) = if width.is_word() {
            (value, None)
        } else {
            let (old, served) = self.bus.read(unit, word);
            (width.stored(old, shift, value), Some(served))
        };
        let victim = self.bus.write(unit, word, value);
        Ok((Reply::Stored { word, value, served }, victim))
    }

    /// Drops the seats from a place on, of so many.
    fn cut(&mut self, cause: Cause, from: usize, count: usize) -> Cut {
        self.seats.truncate(from);
        Cut { cause, first: self.commits + from as u64, tasks: count - from }
    }

    fn replace(&mut self, unit: usize, word: u32) -> Result<Reply, Refusal> {
        if self.stopped.is_some() {
            return Err(Refusal::Stopped);
        }
        let is_active = self.bus.line_is_active(unit, word).ok_or(Refusal::NotResident)?;
        if is_active && !self.is_head(unit) {
            return Err(Refusal::Pinned);
        }
        self.refuse_if_full()?;
        self.bus.replace(unit, word);
        Ok(Reply::Replaced(word))
    }

    fn commit(&mut self) -> Result<(Reply, Option<Cut>), Refusal> {
        if self.stopped.is_some() {
            return Err(Refusal::Stopped);
        }
        let head = self.seats.first().ok_or(Refusal::NoTask)?;
        let end = head.core.done.ok_or(Refusal::HeadNotDone)?;
        self.refuse_if_full()?;
        let cut = self.settle(0, end, self.seats.len());
        self.bus.commit_head();
        let head = self.seats.remove(0);
        self.output.extend(head.waiting);
        match end {
            End::Next(entry) => {
                self.due = entry;
                self.successors[head.entry] = Some(entry);
            }
            End::Exit(_) | End::Trap(_) => self.stopped = Some(end),
        }
        self.commits += 1;
        Ok((Reply::Committed(self.commits - 1), cut))
    }
}
