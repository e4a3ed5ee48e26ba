//! Makes a file in memory with many file marks, finds where each begins by reading the file in pieces of 64 KiB, some
//! times over, and prints a sum over these places, as `heads_speed` does.
//!
//! build:  rustc -C opt-level=3 -C target-cpu=native -o heads heads.rs
//! run:    ./heads 1000000 100

const PIECE: usize = 65_536;

struct File {
    bytes: Vec<u8>,
    reads: u64,
}

impl File {
    fn read(&mut self, at: usize, buf: &mut [u8]) {
        self.reads += 1;
        buf.copy_from_slice(&self.bytes[at..at + buf.len()]);
    }
}

/// Where so many records begin in the front of a file.
fn walk(file: &mut File, piece: &mut [u8], count: usize, end: usize, offsets: &mut Vec<u64>) -> Result<(), usize> {
    offsets.clear();
    let mut from = 0;
    let mut filled = end.min(PIECE);
    file.read(0, &mut piece[..filled]);
    let mut at = 0;
    for number in 0..count {
        if end - at < 5 {
            return Err(number);
        }
        if at + 5 > from + filled {
            from = at;
            filled = (end - at).min(PIECE);
            file.read(at, &mut piece[..filled]);
        }
        let head = &piece[at - from..at - from + 5];
        let size = u32::from_be_bytes([head[1], head[2], head[3], head[4]]) as usize;
        let good = match head[0] {
            b'B' => (1..=1_048_576).contains(&size) && size <= end - at - 5,
            b'M' | b'T' => size == 0,
            _ => false,
        };
        if !good {
            return Err(number);
        }
        offsets.push(at as u64);
        at += 5 + size;
    }
    if at == end { Ok(()) } else { Err(count) }
}

fn main() {
    let words: Vec<usize> = std::env::args().skip(1).map(|it| it.parse().unwrap()).collect();
    let (marks, rounds) = (words[0], words[1]);
    let mut bytes = Vec::new();
    for _ in 0..marks {
        bytes.extend_from_slice(&[b'M', 0, 0, 0, 0]);
    }
    let mut file = File { bytes, reads: 0 };
    let mut piece = vec![0; PIECE];
    let mut offsets = Vec::with_capacity(marks);
    let mut sum = 0u64;
    for _ in 0..rounds {
        walk(&mut file, &mut piece, marks, marks * 5, &mut offsets).expect("records");
        let last = offsets.last().copied().unwrap_or(0);
        sum = sum.wrapping_mul(31).wrapping_add(offsets.len() as u64).wrapping_mul(31).wrapping_add(last);
    }
    println!("{marks} marks, {sum:016x}");
    assert!(file.reads > 0);
}
