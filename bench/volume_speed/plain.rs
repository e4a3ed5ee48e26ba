//! Copies the bytes of writes and reads as a straightforward program would that keeps blocks in memory: beside the
//! measurements of a served volume. It has the words of run.sh.
//!
//! A write makes a block of its bytes, which stands in a queue of 64 before it goes to the tape; a file is an ordered map
//! from offsets to extents. A read asks for its blocks, and the head serves the nearest request ahead of it, or the lowest
//! one; each reply is kept for the log, and handed out as a copy. One thread serves all sessions in turn.

use std::collections::{BTreeMap, BTreeSet, VecDeque};
use std::env;
use std::time::Instant;

/// A part of a file: a block of the tape, and how many bytes.
struct Extent {
    block: usize,
    count: usize,
}

/// A read whose blocks are to come: its bytes so far, and which of them each block has.
struct Reading {
    bytes: Vec<u8>,
    parts: BTreeMap<usize, Vec<(usize, usize)>>,
}

#[derive(Default)]
struct Volume {
    tape: Vec<Vec<u8>>,
    queue: VecDeque<Vec<u8>>,
    files: BTreeMap<String, BTreeMap<usize, Extent>>,
    requests: BTreeSet<(usize, usize)>,
    head: usize,
    log: Vec<Vec<u8>>,
}

impl Volume {
    /// The files' blocks are written whole, so that no extent is cut.
    fn write(&mut self, name: &str, offset: usize, bytes: &[u8]) {
        if self.queue.len() > 64 {
            let block = self.queue.pop_front().expect("the queue has a block");
            self.tape.push(block);
        }
        let block = self.tape.len() + self.queue.len();
        self.queue.push_back(bytes.to_vec());
        let extent = Extent { block, count: bytes.len() };
        self.files.entry(name.to_string()).or_default().insert(offset, extent);
    }

    fn flush(&mut self) {
        self.tape.extend(self.queue.drain(..));
    }

    /// Begins a read: blocks that are held are put in, and the others are asked for.
    fn read(&mut self, who: usize, name: &str, offset: usize, count: usize) -> Reading {
        let mut reading = Reading { bytes: vec![0; count], parts: BTreeMap::new() };
        for (from, extent) in self.files[name].range(offset..offset + count) {
            let at = from - offset;
            if extent.block >= self.tape.len() {
                let held = &self.queue[extent.block - self.tape.len()];
                reading.bytes[at..at + extent.count].copy_from_slice(held);
            } else {
                reading.parts.entry(extent.block).or_default().push((at, extent.count));
                self.requests.insert((extent.block, who));
            }
        }
        reading
    }

    /// Serves one request: which session's, and the block.
    fn step(&mut self) -> Option<(usize, usize)> {
        let next = self.requests.range((self.head, 0)..).next().or_else(|| self.requests.first());
        let &(block, who) = next?;
        self.requests.remove(&(block, who));
        self.head = block + 1;
        Some((who, block))
    }
}

fn hash_of(bytes: &[u8]) -> u64 {
    bytes.iter().fold(0u64, |hash, byte| hash.wrapping_mul(31).wrapping_add(u64::from(*byte)))
}

/// The byte that two decimal digits spell as hexadecimal ones.
fn byte_of(number: usize) -> u8 {
    let digits = 10 + number % 90;
    (16 * (digits / 10) + digits % 10) as u8
}

fn held(rounds: usize) -> (u128, usize, u64) {
    let mut volume = Volume::default();
    let (mut nanos, mut sum) = (0, 0u64);
    for _ in 0..rounds {
        let start = Instant::now();
        let mut replies = Vec::new();
        for k in 0..512 {
            volume.write("h", 4096 * k, &[byte_of(k); 4096]);
            let reading = volume.read(0, "h", 4096 * k, 4096);
            replies.push(reading.bytes.clone());
            volume.log.push(reading.bytes);
        }
        nanos += start.elapsed().as_nanos();
        sum = replies.iter().fold(sum, |sum, bytes| sum.wrapping_add(hash_of(bytes)));
        volume.log.clear();
        volume.flush();
    }
    (nanos, rounds * 1024, sum)
}

fn filled() -> Volume {
    let mut volume = Volume::default();
    for file in 1..=16 {
        for k in 0..1024 {
            volume.write(&format!("f{file}"), 1024 * k, &[byte_of(file + k); 1024]);
        }
    }
    volume.flush();
    volume
}

fn reads(sessions: usize, blocks: usize, rounds: usize) -> (u128, usize, u64) {
    let calls = 1024 / blocks;
    let mut volume = filled();
    let (mut nanos, mut sum) = (0, 0u64);
    for _ in 0..rounds {
        let start = Instant::now();
        let mut next = vec![0; sessions];
        let mut waiting: Vec<Option<Reading>> = (0..sessions).map(|_| None).collect();
        let mut replies = Vec::new();
        for who in 0..sessions {
            waiting[who] = Some(volume.read(who, &format!("f{}", who + 1), 0, 1024 * blocks));
        }
        while let Some((who, block)) = volume.step() {
            let reading = waiting[who].as_mut().expect("the session waits");
            for (at, count) in reading.parts.remove(&block).expect("the block was asked for") {
                reading.bytes[at..at + count].copy_from_slice(&volume.tape[block][..count]);
            }
            if reading.parts.is_empty() {
                let done = waiting[who].take().expect("the session waits");
                replies.push(done.bytes.clone());
                volume.log.push(done.bytes);
                next[who] += 1;
                if next[who] < calls {
                    let at = next[who] * blocks * 1024;
                    waiting[who] = Some(volume.read(who, &format!("f{}", who + 1), at, 1024 * blocks));
                }
            }
        }
        nanos += start.elapsed().as_nanos();
        sum = replies.iter().fold(sum, |sum, bytes| sum.wrapping_add(hash_of(bytes)));
        volume.log.clear();
    }
    (nanos, rounds * sessions * 1024, sum)
}

fn main() {
    let words: Vec<String> = env::args().skip(1).collect();
    let number = |k: usize, or: usize| words.get(k).and_then(|word| word.parse().ok()).unwrap_or(or);
    let (nanos, count, sum) = if words.first().is_none_or(|word| word == "held") {
        held(number(1, 1))
    } else {
        reads(number(1, 16).clamp(1, 16), number(2, 1024).clamp(1, 1024), number(3, 1))
    };
    println!("{count} in {nanos} ns, {} ns each, sum {sum}", nanos / count.max(1) as u128);
}
