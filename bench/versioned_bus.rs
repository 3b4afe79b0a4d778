//! The versioned bus of the threads' twin: all caches, the spill table, the backing memory and the queue of tasks.

/// Who supplied the word of a read.
#[derive(Clone, Copy, PartialEq)]
pub enum Served {
    Hit,
    Reuse,
    Version(usize),
    Spill,
    Committed(usize),
    Memory,
}

/// A line of one word. The bits are V, S, L, C and T, each for itself.
#[derive(Clone, Copy, Default)]
struct Line {
    word: u32,
    value: u32,
    /// The number of the task that filled, stored or reused it last.
    task: u64,
    is_valid: bool,
    is_dirty: bool,
    is_loaded: bool,
    is_committed: bool,
    is_stale: bool,
}

impl Line {
    fn is_active(&self) -> bool {
        self.is_valid && !self.is_committed
    }
}

impl Line {
    fn code(&self) -> u64 {
        [self.is_valid, self.is_dirty, self.is_loaded, self.is_committed, self.is_stale]
            .into_iter()
            .rev()
            .fold(0, |code, bit| 2 * code + u64::from(bit))
    }
}

/// A cache of one unit: rows of as many lines as there are ways, one row a set.
#[derive(Clone)]
struct Cache {
    mask: u32,
    ways: usize,
    lines: Vec<Line>,
}

impl Cache {
    fn new(sets: u32, ways: u32) -> Cache {
        Cache { mask: sets - 1, ways: ways as usize, lines: vec![Line::default(); (sets * ways) as usize] }
    }

    fn row(&self, word: u32) -> &[Line] {
        let start = (word & self.mask) as usize * self.ways;
        &self.lines[start..start + self.ways]
    }

    fn find(&self, word: u32) -> Option<&Line> {
        self.row(word).iter().find(|line| line.is_valid && line.word == word)
    }

    fn find_mut(&mut self, word: u32) -> Option<&mut Line> {
        let start = (word & self.mask) as usize * self.ways;
        self.lines[start..start + self.ways].iter_mut().find(|line| line.is_valid && line.word == word)
    }

    /// The word that is to leave first, where this one has no line and its set is full: the lowest of the committed
    /// lines, or of all where none is committed.
    fn full(&self, word: u32) -> Option<u32> {
        let row = self.row(word);
        if row.iter().any(|line| !line.is_valid || line.word == word) {
            return None;
        }
        let first = row.iter().min_by_key(|line| (!line.is_committed, line.word));
        first.map(|line| line.word)
    }

    /// Puts a line over the one of its word, or else into an empty place, which there is.
    fn fill(&mut self, line: Line) {
        if let Some(old) = self.find_mut(line.word) {
            *old = line;
            return;
        }
        let start = (line.word & self.mask) as usize * self.ways;
        let row = &mut self.lines[start..start + self.ways];
        *row.iter_mut().find(|line| !line.is_valid).expect("a set with room") = line;
    }
}

/// The bus. It serves one call at a time.
#[derive(Clone)]
pub struct Bus {
    caches: Vec<Cache>,
    /// The head's versions that were replaced, by word, and the words that may have one.
    spill: Vec<Option<u32>>,
    spilled: Vec<u32>,
    backing: Vec<u32>,
    /// The units of the active tasks, the oldest first.
    queue: Vec<usize>,
    commits: u64,
}

impl Bus {
    pub fn new(units: usize, sets: u32, ways: u32, memory: Vec<u32>) -> Bus {
        Bus {
            caches: (0..units).map(|_| Cache::new(sets, ways)).collect(),
            spill: vec![None; memory.len()],
            spilled: Vec::new(),
            backing: memory,
            queue: Vec::with_capacity(units),
            commits: 0,
        }
    }

    /// What shows of a unit's cache: which words have lines, with their bits, and whether its committed version is the newest.
    fn row_of(&self, unit: usize) -> Vec<u64> {
        let mut lines: Vec<&Line> = self.caches[unit].lines.iter().filter(|line| line.is_valid).collect();
        lines.sort_by_key(|line| line.word);
        let mut row = vec![lines.len() as u64];
        for line in lines {
            let is_newest = line.is_committed && line.is_dirty && self.newest(line.word) == Some(unit);
            row.extend([line.word.into(), line.code(), is_newest.into()]);
        }
        row
    }

    /// Adds what shows of the caches, those of the active tasks first and in their order, and then the others in an order of
    /// their own, so that it doesn't matter which unit is which; and which words are spilled.
    pub fn add_key(&self, key: &mut Vec<u64>) {
        for unit in &self.queue {
            key.extend(self.row_of(*unit));
        }
        let idle = (0..self.caches.len()).filter(|unit| !self.queue.contains(unit));
        let mut rows: Vec<Vec<u64>> = idle.map(|unit| self.row_of(unit)).collect();
        rows.sort_unstable();
        key.extend(rows.into_iter().flatten());
        let mut spilled: Vec<u64> =
            self.spilled.iter().filter(|word| self.spill[**word as usize].is_some()).map(|word| (*word).into()).collect();
        spilled.sort_unstable();
        spilled.dedup();
        key.extend(spilled);
    }

    /// The unit of the newest committed dirty line of the word.
    fn newest(&self, word: u32) -> Option<usize> {
        let dirty = |cache: &Cache| cache.find(word).filter(|line| line.is_committed && line.is_dirty).map(|line| line.task);
        self.caches.iter().enumerate().filter_map(|(unit, cache)| Some((dirty(cache)?, unit))).max().map(|(_, unit)| unit)
    }

    fn place(&self, unit: usize) -> usize {
        self.queue.iter().position(|&other| other == unit).expect("a unit with a task")
    }

    /// The unit's new task begins, the last.
    pub fn begin(&mut self, unit: usize) {
        self.queue.push(unit);
    }

    /// The word to be replaced before the unit has room for this one, where it has none.
    pub fn set_full(&self, unit: usize, word: u32) -> Option<u32> {
        self.caches[unit].full(word)
    }

    /// Whether the unit's line of the word is active; none where it has no line.
    pub fn line_is_active(&self, unit: usize, word: u32) -> Option<bool> {
        self.caches[unit].find(word).map(Line::is_active)
    }

    /// The newest committed dirty line goes to the backing memory, and all of them become invalid. Answers the unit and
    /// the value of the newest.
    fn purge(&mut self, word: u32) -> Option<(usize, u32)> {
        let mut newest: Option<(u64, usize, u32)> = None;
        for (unit, cache) in self.caches.iter_mut().enumerate() {
            let Some(line) = cache.find_mut(word) else { continue };
            if line.is_committed && line.is_dirty {
                line.is_valid = false;
                if newest.is_none_or(|(task, _, _)| task < line.task) {
                    newest = Some((line.task, unit, line.value));
                }
            }
        }
        let (_, unit, value) = newest?;
        self.backing[word as usize] = value;
        Some((unit, value))
    }

    /// The active line that the task at a place has of the word.
    fn active(&self, place: usize, word: u32) -> Option<&Line> {
        self.caches[self.queue[place]].find(word).filter(|line| line.is_active())
    }

    fn is_overtaken(&self, place: usize, word: u32) -> bool {
        (place + 1..self.queue.len()).any(|later| self.active(later, word).is_some_and(|line| line.is_dirty))
    }

    /// The unit's task reads the word, for which there is room.
    pub fn read(&mut self, unit: usize, word: u32) -> (u32, Served) {
        let place = self.place(unit);
        let task = self.commits + place as u64;
        if let Some(line) = self.caches[unit].find_mut(word) {
            if line.is_active() {
                return (line.value, Served::Hit);
            }
            if !line.is_dirty && !line.is_stale {
                (line.is_committed, line.is_loaded, line.task) = (false, true, task);
                return (line.value, Served::Reuse);
            }
        }
        let committed = self.purge(word);
        let earlier = (0..place).rev().find_map(|place| {
            let line = self.active(place, word).filter(|line| line.is_dirty)?;
            Some((line.value, Served::Version(self.queue[place])))
        });
        let (value, served) = if let Some(found) = earlier {
            found
        } else if let Some(value) = self.spill[word as usize] {
            (value, Served::Spill)
        } else if let Some((unit, value)) = committed {
            (value, Served::Committed(unit))
        } else {
            (self.backing[word as usize], Served::Memory)
        };
        let line = Line {
            word,
            value,
            task,
            is_valid: true,
            is_dirty: false,
            is_loaded: !(place == 0 && served == Served::Spill),
            is_committed: false,
            is_stale: self.is_overtaken(place, word),
        };
        self.caches[unit].fill(line);
        (value, served)
    }

    /// The unit's task stores the word, for which there is room. Answers the place of the first task that is squashed.
    pub fn write(&mut self, unit: usize, word: u32, value: u32) -> Option<usize> {
        let place = self.place(unit);
        self.purge(word);
        let victim = self.victim(place, word);
        if let Some(victim) = victim {
            self.squash_from(victim);
        }
        let is_loaded = self.active(place, word).is_some_and(|line| line.is_loaded);
        let line = Line {
            word,
            value,
            task: self.commits + place as u64,
            is_valid: true,
            is_dirty: true,
            is_loaded,
            is_committed: false,
            is_stale: self.is_overtaken(place, word),
        };
        self.caches[unit].fill(line);
        if place == 0 {
            self.spill[word as usize] = None;
        }
        self.mark_stale(unit, line.task, word);
        victim
    }

    /// The first later task that read the word too early.
    fn victim(&self, place: usize, word: u32) -> Option<usize> {
        for later in place + 1..self.queue.len() {
            if let Some(line) = self.active(later, word) {
                if line.is_loaded {
                    return Some(later);
                }
                if line.is_dirty {
                    return None;
                }
            }
        }
        None
    }

    /// T is set on the other lines of the word that a store overtakes: the committed ones and those of earlier tasks.
    fn mark_stale(&mut self, unit: usize, task: u64, word: u32) {
        for (other, cache) in self.caches.iter_mut().enumerate() {
            if let Some(line) = cache.find_mut(word)
                && other != unit
                && (line.is_committed || line.task < task)
            {
                line.is_stale = true;
            }
        }
    }

    /// Takes the unit's line of the word out.
    pub fn replace(&mut self, unit: usize, word: u32) {
        self.purge(word);
        let Some(line) = self.caches[unit].find_mut(word) else { return };
        if line.is_active() && line.is_dirty {
            self.spill[word as usize] = Some(line.value);
            self.spilled.push(word);
        }
        line.is_valid = false;
    }

    /// The head is committed.
    pub fn commit_head(&mut self) {
        for word in self.spilled.drain(..) {
            if let Some(value) = self.spill[word as usize].take() {
                self.backing[word as usize] = value;
            }
        }
        let unit = self.queue.remove(0);
        for line in &mut self.caches[unit].lines {
            if line.is_valid {
                line.is_committed = true;
            }
        }
        self.commits += 1;
    }

    /// The task at a place is squashed with all after it.
    pub fn squash_from(&mut self, place: usize) {
        for unit in self.queue.drain(place..) {
            for line in &mut self.caches[unit].lines {
                if !line.is_committed {
                    line.is_valid = false;
                }
            }
        }
    }
}
