// The partition of entries into leaves with the selection and the sort of Rust's std, on the same entries and with the
// same rules as crates/bench (`partition draw|tree COUNT ROUNDS`), and the same sum over the order.
use std::cmp::Ordering;

const D: usize = 2;
const LEAF: usize = 333;

#[derive(Clone, Copy)]
struct Entry {
    doc: u32,
    c: [i32; D],
}

fn by_leaf_order(d: usize, a: &Entry, b: &Entry) -> Ordering {
    a.c[d].cmp(&b.c[d]).then_with(|| a.doc.cmp(&b.doc)).then_with(|| a.c.cmp(&b.c))
}

fn widest(entries: &[Entry]) -> usize {
    let (mut lo, mut hi) = (entries[0].c, entries[0].c);
    for e in entries {
        for d in 0..D {
            lo[d] = lo[d].min(e.c[d]);
            hi[d] = hi[d].max(e.c[d]);
        }
    }
    let mut best = 0;
    for d in 1..D {
        if hi[d].abs_diff(lo[d]) > hi[best].abs_diff(lo[best]) {
            best = d;
        }
    }
    best
}

fn key(e: &Entry, d: usize) -> [u8; 4] {
    (e.c[d] as u32 ^ 0x8000_0000).to_be_bytes()
}

/// The dimension whose first byte that is not shared takes the fewest values.
fn leading(entries: &[Entry]) -> usize {
    let (mut best, mut least) = (0, usize::MAX);
    for d in 0..D {
        let first = key(&entries[0], d);
        let mut shared = 4;
        for e in entries {
            let k = key(e, d);
            shared = shared.min((0..4).find(|&i| first[i] != k[i]).unwrap_or(4));
        }
        if shared < 4 {
            let mut seen = [false; 256];
            for e in entries {
                seen[key(e, d)[shared] as usize] = true;
            }
            let spread = seen.iter().filter(|&&s| s).count();
            if spread < least {
                (best, least) = (d, spread);
            }
        }
    }
    best
}

fn part(entries: &mut [Entry]) {
    let len = entries.len();
    if len <= LEAF {
        let d = leading(entries);
        entries.sort_unstable_by(|a, b| by_leaf_order(d, a, b));
        return;
    }
    let rank = len.div_ceil(LEAF).div_ceil(2) * LEAF;
    let d = widest(entries);
    entries.select_nth_unstable_by(rank, |a, b| by_leaf_order(d, a, b));
    let (left, right) = entries.split_at_mut(rank);
    part(left);
    part(right);
}

fn drawn(draw: u64) -> u64 {
    draw * 48_271 % 2_147_483_647
}

fn main() {
    let words: Vec<String> = std::env::args().collect();
    let (count, rounds): (u32, u32) = (words[3].parse().unwrap(), words[4].parse().unwrap());
    let mut draw = 1;
    let mut entries = Vec::new();
    for doc in 0..count {
        let first = drawn(draw);
        draw = drawn(first);
        let at = |x: u64| (x % 200_001) as i32 - 100_000;
        entries.push(Entry { doc, c: [at(first), at(draw)] });
    }
    let mut sum = 0u64;
    for _ in 0..rounds {
        let mut entries = entries.clone();
        if words[2] == "tree" {
            part(&mut entries);
        }
        for e in &entries {
            sum = sum.wrapping_mul(31).wrapping_add(e.doc as u64);
        }
    }
    println!("order {sum}");
}
