//! Makes many overlays at places by chance in one file, and prints what they left, as `extent_speed` does: extents in a
//! sorted vector, found by binary search and changed in place.
//!
//! build:  rustc -C opt-level=3 -C target-cpu=native -o extents extents.rs
//! run:    ./extents 100000 549755813888 65536

const BLOCK_SIZE: u32 = 524_288;

#[derive(Clone, Copy)]
enum Part {
    #[allow(dead_code)]
    Ip,
    Dp,
}

#[derive(Clone, Copy)]
struct Extent {
    offset: u64,
    #[allow(dead_code)]
    part: Part,
    block: u64,
    byte: u32,
    count: u64,
}

struct Numbers {
    state: u64,
}

impl Numbers {
    fn below(&mut self, most: u64) -> u64 {
        self.state = self.state.wrapping_mul(6364136223846793005).wrapping_add(1442695040888963407);
        (self.state >> 20) % most
    }
}

fn rest_of(extent: Extent, count: u64) -> Extent {
    let byte = u64::from(extent.byte) + count;
    Extent {
        offset: extent.offset + count,
        part: extent.part,
        block: extent.block + byte / u64::from(BLOCK_SIZE),
        byte: (byte % u64::from(BLOCK_SIZE)) as u32,
        count: extent.count - count,
    }
}

fn overlay(extents: &mut Vec<Extent>, new: Extent) {
    let end = new.offset + new.count;
    let first = extents.partition_point(|e| e.offset + e.count <= new.offset);
    let last = extents.partition_point(|e| e.offset + e.count <= end);
    let front = match extents.get(first) {
        Some(e) if e.offset < new.offset => Some(Extent { count: e.count.min(new.offset - e.offset), ..*e }),
        _ => None,
    };
    if let Some(e) = extents.get_mut(last) {
        if e.offset < end {
            *e = rest_of(*e, end - e.offset);
        }
    }
    match front {
        Some(front) => drop(extents.splice(first..last, [front, new])),
        None => drop(extents.splice(first..last, [new])),
    }
}

fn main() {
    let mut words = std::env::args().skip(1).map(|word| word.parse::<u64>().unwrap());
    let (overlays, span, longest) = (words.next().unwrap(), words.next().unwrap(), words.next().unwrap());
    let mut numbers = Numbers { state: 1 };
    let mut extents = Vec::new();
    for block in 0..overlays {
        let offset = numbers.below(span);
        let byte = numbers.below(u64::from(BLOCK_SIZE)) as u32;
        let count = numbers.below(longest) + 1;
        overlay(&mut extents, Extent { offset, part: Part::Dp, block, byte, count });
    }
    let mut sum = 0u64;
    for e in &extents {
        for number in [e.offset, e.block, u64::from(e.byte), e.count] {
            sum = sum.wrapping_mul(31).wrapping_add(number);
        }
    }
    println!("{} extents, {sum:016x}", extents.len());
}
