// A plain scan over an array of the same points as crates/bench draws, for the same queries (`walk boxes COUNT TIMES`
// and `near COUNT TIMES`), and the same sums over what is found. `count COUNT TIMES HALF` counts the points of a square
// round the origin, and `grid COUNT TIMES SIDE` those of each of SIDE x SIDE buckets of the plane; both say the sum of
// all counts.

fn next(draw: u64) -> u64 {
    draw % 2_147_483_647 * 48_271 % 2_147_483_647
}

fn coordinate(draw: u64) -> i32 {
    (draw % 200_001) as i32 - 100_000
}

fn point(draw: &mut u64) -> [i32; 2] {
    let first = next(*draw);
    *draw = next(first);
    [coordinate(first), coordinate(*draw)]
}

fn boxed(points: &[[i32; 2]], at: [i32; 2], hits: &mut Vec<u32>) -> u64 {
    const HALF: i32 = 500;
    let (lo, hi) = ([at[0] - HALF, at[1] - HALF], [at[0] + HALF, at[1] + HALF]);
    hits.clear();
    for (doc, p) in points.iter().enumerate() {
        if lo[0] <= p[0] && p[0] <= hi[0] && lo[1] <= p[1] && p[1] <= hi[1] {
            hits.push(doc as u32);
        }
    }
    hits.iter().map(|&doc| u64::from(doc)).sum()
}

/// The numbers of the ten nearest points, the nearest first: the best so far stand in order.
fn near(points: &[[i32; 2]], at: [i32; 2]) -> u64 {
    const K: usize = 10;
    let mut best: Vec<(u64, u32)> = Vec::with_capacity(K + 1);
    for (doc, p) in points.iter().enumerate() {
        let (dx, dy) = (i64::from(p[0]) - i64::from(at[0]), i64::from(p[1]) - i64::from(at[1]));
        let found = ((dx * dx + dy * dy) as u64, doc as u32);
        if best.len() < K || found < best[K - 1] {
            let place = best.partition_point(|b| *b < found);
            best.insert(place, found);
            best.truncate(K);
        }
    }
    best.iter().fold(0u64, |sum, b| sum.wrapping_mul(31).wrapping_add(u64::from(b.1)))
}

fn counted(points: &[[i32; 2]], half: i32) -> u64 {
    points.iter().map(|p| u64::from(-half <= p[0] && p[0] <= half && -half <= p[1] && p[1] <= half)).sum()
}

fn gridded(points: &[[i32; 2]], side: i32, buckets: &mut [u32]) -> u64 {
    let step = 200_001 / side + i32::from(200_001 % side > 0);
    buckets.fill(0);
    for p in points {
        let (x, y) = ((p[0] + 100_000) / step, (p[1] + 100_000) / step);
        buckets[(y * side + x) as usize] += 1;
    }
    buckets.iter().map(|&n| u64::from(n)).sum()
}

/// Counts and grids, each over what the optimizer must take for another square or number of buckets.
fn sums(words: &[String], points: &[[i32; 2]], times: usize) -> u64 {
    let size: i32 = words[4].parse().unwrap();
    let mut buckets = vec![0; size.saturating_mul(size).clamp(1, 1 << 20) as usize];
    (0..times)
        .map(|_| match words[1].as_str() {
            "count" => counted(points, std::hint::black_box(size)),
            _ => gridded(points, std::hint::black_box(size), &mut buckets),
        })
        .sum()
}

fn main() {
    let words: Vec<String> = std::env::args().collect();
    let count: usize = words[2].parse().unwrap();
    let times: usize = words[3].parse().unwrap();
    let mut draw = 1;
    let points: Vec<[i32; 2]> = (0..count).map(|_| point(&mut draw)).collect();
    if words.len() > 4 {
        println!("{} {}", words[1], sums(&words, &points, times));
        return;
    }
    let mut at = 7;
    let mut hits = Vec::new();
    let mut sum = 0u64;
    for _ in 0..times {
        let centre = point(&mut at);
        let found = if words[1] == "near" { near(&points, centre) } else { boxed(&points, centre, &mut hits) };
        sum = sum.wrapping_add(found);
    }
    println!("{} {}", if words[1] == "near" { "near" } else { "hits" }, sum);
}
