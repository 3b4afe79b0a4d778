//! Writes the images of the measurements: `images NAME FILE`.
//!
//! - `loop`: 400 tasks of 50,187 turns each, one after another at one entry, over registers and a table of 64 words.
//! - `apart`: 512 tasks, each with an entry and eight data words of its own, of some 8,000 turns that touch registers
//!   alone, 16 loads, 16 stores and a word put out. No task touches a word that another stores.
//! - `local`: the same with one load and one store, which come after the other turns.
//! - `memory`: the same with 200 loads and 100 stores and few other turns; half of the loads are of words that all share.
//! - `small`, `large`: 150,000 tasks of four turns, with a load and a store, over 100 and over 65,536 data words.
//! - `short`: tasks of one turn each, one after another at one entry, without an end.
//! - `spin`: 960 tasks of 65,000 turns each that touch registers alone and ask nothing, each at an entry of its own.
//! - `chain`: 60 tasks with an entry each, in the order of their entries, that hand a sum on through a word that all share.
//!   Each also loads a word that an earlier one stored, and stores one that a later one loads. The last one puts the sum out.

use std::{env, fs, process};

/// A register.
type X = u32;

const LIMIT: u32 = 65_536;
const TASKS: u32 = 512;
const WORDS_OF_A_TASK: u32 = 8;
const DATA_START: u32 = 0x0010_0000;
const EMIT: i32 = 1;

fn immediate(opcode: u32, function: u32, rd: X, a: X, value: i32) -> u32 {
    (value as u32) << 20 | a << 15 | function << 12 | rd << 7 | opcode
}

fn register(function: u32, rd: X, a: X, b: X) -> u32 {
    b << 20 | a << 15 | function << 12 | rd << 7 | 0x33
}

fn addi(rd: X, a: X, value: i32) -> u32 {
    immediate(0x13, 0, rd, a, value)
}

fn andi(rd: X, a: X, value: i32) -> u32 {
    immediate(0x13, 7, rd, a, value)
}

fn slli(rd: X, a: X, amount: i32) -> u32 {
    immediate(0x13, 1, rd, a, amount)
}

fn srli(rd: X, a: X, amount: i32) -> u32 {
    immediate(0x13, 5, rd, a, amount)
}

fn add(rd: X, a: X, b: X) -> u32 {
    register(0, rd, a, b)
}

fn xor(rd: X, a: X, b: X) -> u32 {
    register(4, rd, a, b)
}

fn lui(rd: X, upper: u32) -> u32 {
    upper << 12 | rd << 7 | 0x37
}

fn lw(rd: X, a: X, offset: i32) -> u32 {
    immediate(0x03, 2, rd, a, offset)
}

fn sw(value: X, a: X, offset: i32) -> u32 {
    let offset = offset as u32;
    (offset >> 5 & 0x7F) << 25 | value << 20 | a << 15 | 2 << 12 | (offset & 0x1F) << 7 | 0x23
}

/// A branch to so many bytes from here, where the registers differ.
fn bne(a: X, b: X, offset: i32) -> u32 {
    let offset = offset as u32;
    let upper = (offset >> 12 & 1) << 31 | (offset >> 5 & 0x3F) << 25;
    upper | b << 20 | a << 15 | 1 << 12 | (offset >> 1 & 0xF) << 8 | (offset >> 11 & 1) << 7 | 0x63
}

fn jal(rd: X, offset: u32) -> u32 {
    let upper = (offset >> 20 & 1) << 31 | (offset >> 1 & 0x3FF) << 21 | (offset >> 11 & 1) << 20;
    upper | (offset >> 12 & 0xFF) << 12 | rd << 7 | 0x6F
}

fn jalr(rd: X, a: X) -> u32 {
    immediate(0x67, 0, rd, a, 0)
}

const ECALL: u32 = 0x73;

/// The next number of a generator by shifts and exclusive ors, by way of another register.
fn draw(number: X, other: X) -> [u32; 6] {
    [
        slli(other, number, 13),
        xor(number, number, other),
        srli(other, number, 17),
        xor(number, number, other),
        slli(other, number, 5),
        xor(number, number, other),
    ]
}

/// The text is followed by a branch back to one of its words while a register isn't 0.
fn repeat(text: &mut Vec<u32>, counter: X, from: usize) {
    text.push(addi(counter, counter, -1));
    text.push(bne(counter, 0, 4 * (from as i32 - text.len() as i32)));
}

/// An image's file. The first entry is the start, and all registers are 0.
fn image(entries: &[u32], text: &[u32], data: &[u32]) -> Vec<u8> {
    let mut bytes = b"SVCI".to_vec();
    bytes.extend(1u16.to_le_bytes());
    bytes.extend((entries.len() as u16).to_le_bytes());
    let header = [text.len() as u32, data.len() as u32, LIMIT, entries[0]];
    for words in [&header[..], &[0; 31], entries, text, data] {
        bytes.extend(words.iter().flat_map(|word| word.to_le_bytes()));
    }
    bytes
}

/// A task draws 3,584 numbers, and adds their sum to a word of a table of 64 that each number picks. It hands on to
/// itself; the last one exits.
fn long_loop() -> Vec<u8> {
    let mut text = vec![
        lui(5, 0x100),
        lw(6, 5, 0), // the last number drawn
        addi(7, 0, 0),
        lui(28, 1),
        addi(28, 28, -512),
    ];
    let round = text.len();
    text.extend(draw(6, 29));
    text.extend([
        add(7, 7, 6),
        srli(29, 6, 18),
        andi(29, 29, 0xFC),
        add(29, 5, 29),
        lw(30, 29, 4),
        add(30, 30, 7),
        sw(30, 29, 4),
    ]);
    repeat(&mut text, 28, round);
    text.extend([sw(6, 5, 0), lw(31, 5, 260), addi(31, 31, -1), sw(31, 5, 260)]); // the tasks left
    text.push(bne(31, 0, -4 * text.len() as i32));
    text.extend([lw(10, 5, 4), ECALL]);
    let mut data = [0; 66];
    data[0] = 88_172_645;
    data[65] = 400;
    image(&[0], &text, &data)
}

/// Tasks with an entry of three words each: the address of the task's own words, and a call of what they share. It
/// returns to the next one's entry; the last entry exits. The text shared begins after the exit.
fn tasks_of_their_own(shared: &[u32]) -> Vec<u8> {
    let body = 3 * TASKS + 3;
    let mut text = Vec::new();
    for task in 0..TASKS {
        let address = DATA_START + 4 * WORDS_OF_A_TASK * (task + 1);
        let upper = (address + 0x800) >> 12;
        text.push(lui(5, upper));
        text.push(addi(5, 5, address.wrapping_sub(upper << 12) as i32));
        text.push(jal(1, 4 * (body - text.len() as u32)));
    }
    text.extend([lui(5, 0x100), lw(10, 5, 0), ECALL]);
    text.extend(shared);
    let entries: Vec<u32> = (0..=TASKS).map(|task| 12 * task).collect();
    let data: Vec<u32> = (0..WORDS_OF_A_TASK * (TASKS + 1)).collect();
    image(&entries, &text, &data)
}

/// The sum of what was drawn is put out, and the task ends.
fn put_out(text: &mut Vec<u32>, sum: X) {
    text.extend([addi(10, sum, 0), addi(17, 0, EMIT), ECALL, jalr(0, 1)]);
}

/// Tasks of so many rounds. A round draws so many numbers, and adds the last one to a word of the task's own.
fn tasks_that_draw(rounds: i32, draws: i32) -> Vec<u8> {
    let mut text = vec![addi(6, 5, 0), addi(28, 0, rounds)];
    let round = text.len();
    text.push(addi(29, 0, draws));
    let number = text.len();
    text.extend(draw(6, 30));
    repeat(&mut text, 29, number);
    text.extend([andi(31, 28, 7), slli(31, 31, 2), add(31, 31, 5)]);
    text.extend([lw(7, 31, 0), add(7, 7, 6), sw(7, 31, 0)]);
    repeat(&mut text, 28, round);
    put_out(&mut text, 7);
    tasks_of_their_own(&text)
}

fn memory() -> Vec<u8> {
    let mut text = vec![lui(8, 0x100), addi(28, 0, 100)];
    let round = text.len();
    text.extend([andi(31, 28, 7), slli(31, 31, 2), add(30, 31, 8), add(31, 31, 5)]);
    text.extend([lw(6, 30, 0), lw(7, 31, 0), add(7, 7, 6), sw(7, 31, 0)]);
    repeat(&mut text, 28, round);
    put_out(&mut text, 7);
    tasks_of_their_own(&text)
}

fn many_commits(words: usize) -> Vec<u8> {
    let text = [lui(5, 0x100), lw(6, 5, 0), addi(6, 6, -1), sw(6, 5, 0), bne(6, 0, -16), ECALL];
    let mut data = vec![0; words];
    data[0] = 150_000;
    image(&[0], &text, &data)
}

/// Each task is one jump to its own entry.
fn one_turn() -> Vec<u8> {
    image(&[0], &[jal(0, 0)], &[0])
}

/// Each task counts down from 32,499 and goes on to the next entry; the last one exits.
fn spin() -> Vec<u8> {
    const SPINNING: u32 = 960;
    let mut text = Vec::new();
    for _ in 0..SPINNING {
        text.extend([lui(28, 8), addi(28, 28, -269)]);
        let round = text.len();
        repeat(&mut text, 28, round);
    }
    text.push(ECALL);
    let entries: Vec<u32> = (0..=SPINNING).map(|task| 16 * task).collect();
    image(&entries, &text, &[0])
}

fn chain() -> Vec<u8> {
    const CHAINED: u32 = 60;
    let word = |number: u32| 4 * (number % 8) as i32 + 4;
    let mut text = Vec::new();
    let mut entries = Vec::new();
    for task in 0..CHAINED - 1 {
        entries.push(4 * text.len() as u32);
        text.extend([lui(5, 0x100), addi(28, 0, 3)]);
        let round = text.len();
        text.push(add(7, 7, 28));
        repeat(&mut text, 28, round);
        text.extend([lw(6, 5, 0), lw(9, 5, word(task)), add(6, 6, 9), add(6, 6, 7)]);
        text.extend([sw(6, 5, 0), addi(9, 9, 1), sw(9, 5, word(task + 3))]);
    }
    entries.push(4 * text.len() as u32);
    text.extend([lui(5, 0x100), lw(10, 5, 0), addi(17, 0, EMIT), ECALL, addi(17, 0, 0), addi(10, 0, 0), ECALL]);
    image(&entries, &text, &[0, 1, 2, 3, 4, 5, 6, 7, 8])
}

fn main() {
    let words: Vec<String> = env::args().skip(1).collect();
    let [name, file] = words.as_slice() else {
        eprintln!("usage: images NAME FILE");
        process::exit(1);
    };
    let bytes = match name.as_str() {
        "loop" => long_loop(),
        "apart" => tasks_that_draw(16, 64),
        "local" => tasks_that_draw(1, 1_024),
        "memory" => memory(),
        "small" => many_commits(100),
        "large" => many_commits(65_536),
        "short" => one_turn(),
        "spin" => spin(),
        "chain" => chain(),
        _ => process::exit(1),
    };
    fs::write(file, bytes).expect("the image is written");
}
