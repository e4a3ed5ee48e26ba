//! Makes many writes of 64 bytes at places by chance in one file in memory, and prints a sum over what it holds, as
//! `disk_speed` does. It keeps the bytes that each write has overwritten.
//!
//! build:  rustc -C opt-level=3 -C target-cpu=native -o disk disk.rs
//! run:    ./disk 100000 1048576

#[allow(dead_code)]
struct Change {
    number: u64,
    at: usize,
    count: usize,
    old_len: usize,
    gone: Vec<u8>,
}

struct Disk {
    bytes: Vec<u8>,
    changes: Vec<Change>,
    commands: u64,
}

impl Disk {
    fn length(&mut self) -> usize {
        self.commands += 1;
        self.bytes.len()
    }

    fn write(&mut self, at: usize, piece: &[u8]) {
        let number = self.commands;
        self.commands += 1;
        let old_len = self.bytes.len();
        let covered = piece.len().min(old_len - at);
        let gone = self.bytes[at..at + covered].to_vec();
        self.bytes[at..at + covered].copy_from_slice(&piece[..covered]);
        self.bytes.extend_from_slice(&piece[covered..]);
        self.changes.push(Change { number, at, count: piece.len(), old_len, gone });
    }

    fn read(&mut self, at: usize, buf: &mut [u8]) {
        self.commands += 1;
        buf.copy_from_slice(&self.bytes[at..at + buf.len()]);
    }
}

fn main() {
    let words: Vec<u64> = std::env::args().skip(1).map(|it| it.parse().unwrap()).collect();
    let mut disk = Disk { bytes: vec![0; words[1] as usize], changes: Vec::new(), commands: 0 };
    let mut state = 7u64;
    for _ in 0..words[0] {
        let count = disk.length() as u64;
        state = state.wrapping_mul(6364136223846793005).wrapping_add(1442695040888963407);
        let number = state >> 20;
        disk.write((number % (count - 63)) as usize, &[(number % 251) as u8; 64]);
    }
    let commands = disk.commands;
    let mut bytes = vec![0; disk.length()];
    disk.read(0, &mut bytes);
    let sum = bytes.iter().fold(0u64, |sum, byte| sum.wrapping_mul(31).wrapping_add(u64::from(*byte)));
    println!("{commands} commands, {sum:016x}");
    assert_eq!(disk.changes.len() as u64, words[0]);
}
