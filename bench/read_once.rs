//! Reads each file of a folder once, and prints how many bytes that were and a sum over some of them.
//!
//! With `compared` behind the folder: reads the index partition's file into fresh memory, and as many bytes at the end of
//! the data partition's block by block, compared with those; prints how many bytes are the same, and the time. That is
//! what a mount has to do with two documents beside parsing one.
use std::fs::{self, File};
use std::io::{Read, Seek, SeekFrom};
use std::time::Instant;

const BLOCK: usize = 524_288;

fn compared(folder: &str) {
    let begun = Instant::now();
    let mut block = vec![0u8; BLOCK];
    let mut kept = Vec::new();
    let mut index = File::open(format!("{folder}/ip.img")).expect("a file");
    loop {
        let got = index.read(&mut block).expect("bytes");
        if got == 0 {
            break;
        }
        kept.extend_from_slice(&block[..got]);
    }
    let mut data = File::open(format!("{folder}/dp.img")).expect("a file");
    data.seek(SeekFrom::End(-(kept.len() as i64))).expect("a file as long");
    let mut same = 0;
    for part in kept.chunks(BLOCK) {
        let block = &mut block[..part.len()];
        data.read_exact(block).expect("bytes");
        same += part.iter().zip(&*block).filter(|(one, other)| one == other).count();
    }
    println!("{same} of {} bytes, {} us", kept.len(), begun.elapsed().as_micros());
}

fn summed(folder: &str) {
    let mut buffer = vec![0u8; 1 << 20];
    let (mut count, mut sum) = (0u64, 0u64);
    for name in ["ip.img", "dp.img", "cm.img"] {
        let path = format!("{folder}/{name}");
        if fs::metadata(&path).is_err() {
            continue;
        }
        let mut file = File::open(path).expect("a file");
        loop {
            let got = file.read(&mut buffer).expect("bytes");
            if got == 0 {
                break;
            }
            count += got as u64;
            sum = sum.wrapping_mul(31).wrapping_add(u64::from(buffer[got - 1]));
        }
    }
    println!("{count} bytes, {sum:016x}");
}

fn main() {
    let mut words = std::env::args().skip(1);
    let folder = words.next().expect("a folder");
    match words.next() {
        Some(word) if word == "compared" => compared(&folder),
        _ => summed(&folder),
    }
}
