//! What the tasks of an image need of one another, in Rust without proofs: the measure that `svc_depend` is held against.
//! Each task's turns are logged first, and what it needs is found in the whole log afterwards.
//!
//! `depend_twin IMAGE TASKS BY` prints the totals, the table by `task`, `pair` or `word`, or the graph for `dot`.

#[allow(dead_code, reason = "what other twins need")]
mod interpreter;

use interpreter::{End, Image, Memory, Task, Width, arguments};
use std::collections::{BTreeMap, BTreeSet, HashMap, HashSet};
use std::fs;

/// The words that a turn reads and writes.
type Touch = (Option<usize>, Option<usize>);

struct Logged<'a> {
    data: &'a mut [u32],
    touch: Touch,
}

impl Memory for Logged<'_> {
    type Stop = End;

    fn load(&mut self, width: Width, address: u32, _register: usize) -> Result<u32, End> {
        let (at, shift) = width.place(address, self.data.len()).map_err(End::Trap)?;
        self.touch.0 = Some(at);
        Ok(width.loaded(self.data[at], shift))
    }

    fn store(&mut self, width: Width, address: u32, value: u32) -> Result<(), End> {
        let (at, shift) = width.place(address, self.data.len()).map_err(End::Trap)?;
        self.touch = (if width.is_word() { None } else { Some(at) }, Some(at));
        self.data[at] = width.stored(self.data[at], shift, value);
        Ok(())
    }

    fn emit(&mut self, _value: u32) -> Result<(), End> {
        Ok(())
    }
}

/// What a task did: a touch for each turn, and how it ended.
fn log_of(image: &Image, entry: u32, data: &mut [u32]) -> (Vec<Touch>, End) {
    let mut task = Task::new(image, entry);
    let mut log = Vec::new();
    loop {
        let mut memory = Logged { data, touch: (None, None) };
        let end = task.turn(image, &mut memory);
        log.push(memory.touch);
        match end {
            Err(end) => return (log, end),
            Ok(()) if task.is_at_entry(image) => return (log, End::Next(task.pc)),
            Ok(()) => {}
        }
    }
}

struct Row {
    entry: u32,
    turns: usize,
    needed: BTreeSet<usize>,
    written: BTreeSet<usize>,
    /// For each task that it needs, the words that come from there.
    from: BTreeMap<usize, Vec<usize>>,
    chain: u64,
}

fn main() {
    let [path, most, by] = arguments("depend_twin IMAGE TASKS BY");
    let most: usize = most.parse().expect("a number of tasks");
    let image = Image::read(&fs::read(path).expect("the image is read")).expect("a sound image");
    let mut data = image.data.clone();
    let mut rows: Vec<Row> = Vec::new();
    let mut times: HashMap<usize, u64> = HashMap::new();
    let mut end = End::Next(image.start);
    while let End::Next(entry) = end {
        if rows.len() == most {
            break;
        }
        let (log, next) = log_of(&image, entry, &mut data);
        end = next;
        let mut needed = BTreeSet::new();
        let mut written = BTreeSet::new();
        let mut chain = 0;
        for (reads, writes) in &log {
            let mut ready = 0;
            if let Some(word) = reads
                && !written.contains(word)
                && needed.insert(*word)
            {
                ready = *times.get(word).unwrap_or(&0);
            }
            chain = chain.max(ready) + 1;
            if let Some(word) = writes {
                written.insert(*word);
                times.insert(*word, chain);
            }
        }
        let mut from = BTreeMap::new();
        for word in &needed {
            if let Some(last) = rows.iter().rposition(|row| row.written.contains(word)) {
                from.entry(last).or_insert(Vec::new()).push(*word);
            }
        }
        rows.push(Row { entry, turns: log.len(), needed, written, from, chain });
    }
    let nearest = |task: usize, row: &Row| row.from.keys().map(|on| task - on).min();
    match by.as_str() {
        "task" => {
            println!("task,entry,turns,needs,memory,nearest,stores,chain");
            for (task, row) in rows.iter().enumerate() {
                let memory = row.needed.len() - row.from.values().map(Vec::len).sum::<usize>();
                let near = nearest(task, row).unwrap_or(0);
                println!("{task},{},{},{},{memory},{near},{},{}", row.entry, row.turns, row.needed.len(), row.written.len(), row.chain);
            }
        }
        "pair" => {
            println!("task,on,distance,words");
            for (task, row) in rows.iter().enumerate() {
                for (on, words) in &row.from {
                    println!("{task},{on},{},{}", task - on, words.len());
                }
            }
        }
        "dot" => {
            println!("digraph depend {{");
            for (task, row) in rows.iter().enumerate() {
                for (on, words) in &row.from {
                    let mut label = words.iter().take(3).map(ToString::to_string).collect::<Vec<_>>().join(" ");
                    if words.len() > 3 {
                        label += &format!(" +{}", words.len() - 3);
                    }
                    println!("  {task} -> {on} [label=\"{label}\"];");
                }
            }
            println!("}}");
        }
        "word" => {
            println!("word,readers,writers,nearest");
            let words: HashSet<usize> = rows.iter().flat_map(|row| row.needed.union(&row.written)).copied().collect();
            for word in words.into_iter().collect::<BTreeSet<_>>() {
                let readers = rows.iter().filter(|row| row.needed.contains(&word)).count();
                let writers = rows.iter().filter(|row| row.written.contains(&word)).count();
                let near = rows.iter().enumerate().filter(|(_, row)| row.needed.contains(&word));
                let near = near.filter_map(|(task, _)| rows[..task].iter().rposition(|row| row.written.contains(&word)).map(|on| task - on)).min();
                println!("{word},{readers},{writers},{}", near.unwrap_or(0));
            }
        }
        _ => {
            println!("tasks,{}", rows.len());
            match end {
                End::Next(entry) => println!("open,{entry}"),
                End::Exit(code) => println!("exit,{code}"),
                End::Trap(number) => println!("trap,{number}"),
            }
            let needs: usize = rows.iter().map(|row| row.needed.len()).sum();
            let from: usize = rows.iter().flat_map(|row| row.from.values()).map(Vec::len).sum();
            let near = rows.iter().enumerate().filter_map(|(task, row)| nearest(task, row)).min();
            println!("turns,{}", rows.iter().map(|row| row.turns).sum::<usize>());
            println!("needs,{needs}\nmemory,{}", needs - from);
            println!("nearest,{}\nunits,{}", near.unwrap_or(0), near.unwrap_or(16).min(16));
            println!("chain,{}", rows.iter().map(|row| row.chain).max().unwrap_or(0));
        }
    }
}
