//! Tasks on ordered maps with keys of 64 bits, for `measure`: std's `BTreeMap` beside the tree behind
//! the exports of the crate `index_bench`.
//!
//! `driver task MAP TASK ORDER N ROUNDS` runs one task alone, whose instructions another program
//! counts. `driver peak MAP N ROUNDS` prints the most memory that a queue of N pairs takes over so many
//! rounds. `driver times N..` prints for each order and number of keys the nanoseconds of a look-up in
//! each map.
use std::collections::BTreeMap;
use std::hint::black_box;

// Nothing checks these against the crate's source. A slice crosses as a pointer and a length.
unsafe extern "C" {
    fn index_bench_insert(keys: *const u64, len: usize) -> usize;
    fn index_bench_get(
        keys: *const u64,
        len: usize,
        probes: *const u64,
        count: usize,
        rounds: u32,
    ) -> u64;
    fn index_bench_walk(keys: *const u64, len: usize, rounds: u32) -> u64;
    fn index_bench_remove(keys: *const u64, len: usize, rounds: u32) -> usize;
    fn index_bench_upsert(keys: *const u64, len: usize, rounds: u32) -> u64;
    fn index_bench_queue(count: u32, rounds: u32) -> u64;
    fn index_bench_clone(keys: *const u64, len: usize, rounds: u32) -> usize;
    fn index_bench_cut(keys: *const u64, len: usize, from: u64, upto: u64, rounds: u32) -> usize;
    fn index_bench_scan(
        keys: *const u64,
        len: usize,
        probes: *const u64,
        count: usize,
        rounds: u32,
    ) -> u64;
}

/// How many look-ups a round has whose instructions are counted, and one whose time is taken.
const COUNTED: u64 = 10_000;
const TIMED: u64 = 200_000;

#[derive(Clone, Copy, PartialEq)]
enum Map {
    Std,
    Index,
}

impl Map {
    const ALL: [Map; 2] = [Map::Std, Map::Index];

    /// Inserts each key, drops the map, and gives how many keys it had.
    fn insert(self, keys: &[u64]) -> usize {
        match self {
            Map::Std => built(keys).len(),
            // SAFETY: the call has no conditions, and the slice is live in it.
            Map::Index => unsafe { index_bench_insert(keys.as_ptr(), keys.len()) },
        }
    }

    /// Looks each probe up in a map of these keys, `rounds` times, and sums what it finds.
    fn get(self, keys: &[u64], probes: &[u64], rounds: u32) -> u64 {
        match self {
            Map::Std => {
                let map = built(keys);
                (0..rounds).fold(0, |sum, _| get_all(&map, probes, sum))
            }
            // SAFETY: the call has no conditions, and the slices are live in it.
            Map::Index => unsafe {
                index_bench_get(
                    keys.as_ptr(),
                    keys.len(),
                    probes.as_ptr(),
                    probes.len(),
                    rounds,
                )
            },
        }
    }

    /// Goes through a map of these keys, `rounds` times, and sums the values.
    fn walk(self, keys: &[u64], rounds: u32) -> u64 {
        match self {
            Map::Std => {
                let map = built(keys);
                (0..rounds).fold(0, |sum, _| walk(&map, sum))
            }
            // SAFETY: the call has no conditions, and the slice is live in it.
            Map::Index => unsafe { index_bench_walk(keys.as_ptr(), keys.len(), rounds) },
        }
    }

    /// Removes the first half of the keys, if there is a round, and gives how many are left.
    fn remove(self, keys: &[u64], rounds: u32) -> usize {
        match self {
            Map::Std => {
                let mut map = built(keys);
                if rounds > 0 {
                    remove_all(&mut map, &keys[..keys.len() / 2]);
                }
                map.len()
            }
            // SAFETY: the call has no conditions, and the slice is live in it.
            Map::Index => unsafe { index_bench_remove(keys.as_ptr(), keys.len(), rounds) },
        }
    }

    /// Upserts each of these keys into a map that has them, `rounds` times, and sums the values.
    fn upsert(self, keys: &[u64], rounds: u32) -> u64 {
        match self {
            Map::Std => {
                let mut map = built(keys);
                for round in 0..u64::from(rounds) {
                    upsert_all(&mut map, keys, round);
                }
                walk(&map, 0)
            }
            // SAFETY: the call has no conditions, and the slice is live in it.
            Map::Index => unsafe { index_bench_upsert(keys.as_ptr(), keys.len(), rounds) },
        }
    }

    /// A queue of so many keys: in each round the least goes, and one above the greatest comes.
    fn queue(self, count: u32, rounds: u32) -> u64 {
        match self {
            Map::Std => {
                let mut queue: BTreeMap<u64, u64> = (0..u64::from(count))
                    .map(|number| (number * 1000, 0))
                    .collect();
                for number in 0..u64::from(rounds) {
                    queue.remove(&(number * 1000));
                    let above = number + u64::from(count);
                    queue.insert(above * 1000, above);
                }
                queue.first_key_value().map_or(0, |(least, _)| *least)
            }
            // SAFETY: the call has no conditions.
            Map::Index => unsafe { index_bench_queue(count, rounds) },
        }
    }

    /// Clones a map of these keys, `rounds` times, and gives how many pairs the copies have.
    fn clones(self, keys: &[u64], rounds: u32) -> usize {
        match self {
            Map::Std => {
                let map = built(keys);
                (0..rounds).fold(0, |sum, _| sum + black_box(map.clone()).len())
            }
            // SAFETY: the call has no conditions, and the slice is live in it.
            Map::Index => unsafe { index_bench_clone(keys.as_ptr(), keys.len(), rounds) },
        }
    }

    /// Removes the half of the keys in the middle, if there is a round, and gives how many are left. Std's map
    /// is cut twice for that, and joined again.
    fn cut(self, keys: &[u64], rounds: u32) -> usize {
        let mut sorted = keys.to_vec();
        sorted.sort_unstable();
        let (from, upto) = (sorted[keys.len() / 4], sorted[keys.len() / 4 * 3]);
        match self {
            Map::Std => {
                let mut map = built(keys);
                if rounds > 0 {
                    let mut rest = map.split_off(&from);
                    map.append(&mut rest.split_off(&upto));
                }
                map.len()
            }
            // SAFETY: the call has no conditions, and the slice is live in it.
            Map::Index => unsafe { index_bench_cut(keys.as_ptr(), keys.len(), from, upto, rounds) },
        }
    }

    /// Takes a hundred pairs from each probe on, `rounds` times, and sums the values.
    fn scan(self, keys: &[u64], probes: &[u64], rounds: u32) -> u64 {
        match self {
            Map::Std => {
                let map = built(keys);
                (0..rounds).fold(0, |sum, _| {
                    probes.iter().fold(sum, |sum, probe| scan(&map, probe, sum))
                })
            }
            // SAFETY: the call has no conditions, and the slices are live in it.
            Map::Index => unsafe {
                index_bench_scan(
                    keys.as_ptr(),
                    keys.len(),
                    probes.as_ptr(),
                    probes.len(),
                    rounds,
                )
            },
        }
    }
}

fn built(keys: &[u64]) -> BTreeMap<u64, u64> {
    let mut map = BTreeMap::new();
    for key in keys {
        map.insert(*key, *key);
    }
    map
}

#[inline(never)]
fn upsert_all(map: &mut BTreeMap<u64, u64>, keys: &[u64], value: u64) {
    for key in keys {
        map.insert(*key, value);
    }
}

fn remove_all(map: &mut BTreeMap<u64, u64>, keys: &[u64]) {
    for key in keys {
        map.remove(key);
    }
}

#[inline(never)]
fn get_all(map: &BTreeMap<u64, u64>, probes: &[u64], sum: u64) -> u64 {
    let mut total = sum;
    for probe in probes {
        total = total.wrapping_add(map.get(probe).map_or(0, |value| *value));
    }
    total
}

#[inline(never)]
fn walk(map: &BTreeMap<u64, u64>, sum: u64) -> u64 {
    let mut total = sum;
    for (_, value) in map.iter() {
        total = total.wrapping_add(*value);
    }
    total
}

#[inline(never)]
fn scan(map: &BTreeMap<u64, u64>, from: &u64, sum: u64) -> u64 {
    let mut total = sum;
    for (_, value) in map.range(from..).take(100) {
        total = total.wrapping_add(*value);
    }
    total
}

/// A number for each number, in no order (the last step of SplitMix64).
fn mixed(number: u64) -> u64 {
    let mut bits = number.wrapping_add(1).wrapping_mul(0x9E37_79B9_7F4A_7C15);
    bits = (bits ^ (bits >> 30)).wrapping_mul(0xBF58_476D_1CE4_E5B9);
    bits = (bits ^ (bits >> 27)).wrapping_mul(0x94D0_49BB_1331_11EB);
    bits ^ (bits >> 31)
}

fn keys(order: &str, count: u64) -> Vec<u64> {
    match order {
        "ascending" => (0..count).map(|i| i * 1000).collect(),
        "random" => (0..count).map(mixed).collect(),
        _ => panic!("no order: {order}"),
    }
}

fn probes(keys: &[u64], wanted: u64) -> Vec<u64> {
    let count = keys.len() as u64;
    let place = |i| (mixed(i ^ 0xabcdef) % count) as usize;
    (0..wanted).map(|i| keys[place(i)]).collect()
}

/// The nanoseconds that this process has had of a processor.
fn processor_time() -> f64 {
    #[repr(C)]
    struct Time {
        seconds: i64,
        nanoseconds: i64,
    }
    unsafe extern "C" {
        fn clock_gettime(clock: i32, time: *mut Time) -> i32;
    }
    const PROCESS: i32 = 2;
    let mut time = Time {
        seconds: 0,
        nanoseconds: 0,
    };
    // SAFETY: `time` is a place for the answer.
    unsafe { clock_gettime(PROCESS, &mut time) };
    time.seconds as f64 * 1e9 + time.nanoseconds as f64
}

/// The most memory that this process has had, in kilobytes.
fn peak() -> u64 {
    let status = std::fs::read_to_string("/proc/self/status").expect("a status");
    let line = status.lines().find(|line| line.starts_with("VmHWM"));
    line.and_then(|line| line.split_whitespace().nth(1)?.parse().ok())
        .expect("a number")
}

/// The nanoseconds of a look-up in each map: the least time of some runs, which take turns, less the
/// least time without look-ups.
fn times(order: &str, count: u64) -> [f64; 2] {
    const ROUNDS: u32 = 10;
    let keys = keys(order, count);
    let probes = probes(&keys, TIMED);
    let mut least = [[f64::MAX; 2]; 2];
    for _ in 0..7 {
        let mut sums = [0; 2];
        for map in Map::ALL {
            for (rounds, least) in [0, ROUNDS].iter().zip(&mut least[map as usize]) {
                let start = processor_time();
                sums[map as usize] = black_box(map.get(&keys, &probes, *rounds));
                *least = least.min(processor_time() - start);
            }
        }
        assert_eq!(sums[0], sums[1], "the maps differ: {order} {count}");
    }
    least.map(|[without, with]| (with - without) / (TIMED * u64::from(ROUNDS)) as f64)
}

fn main() {
    let words: Vec<String> = std::env::args().skip(1).collect();
    let number = |at: usize| -> u64 { words[at].parse().expect("a number") };
    match words[0].as_str() {
        "task" => {
            let map = if words[1] == "std" {
                Map::Std
            } else {
                Map::Index
            };
            let keys = keys(&words[3], number(4));
            let answer = match words[2].as_str() {
                "insert" => map.insert(&keys) as u64,
                "upsert" => map.upsert(&keys, number(5) as u32),
                "remove" => map.remove(&keys, number(5) as u32) as u64,
                "clone" => map.clones(&keys, number(5) as u32) as u64,
                "cut" => map.cut(&keys, number(5) as u32) as u64,
                "queue" => map.queue(number(4) as u32, number(5) as u32),
                "walk" => map.walk(&keys, number(5) as u32),
                "scan" => map.scan(&keys, &probes(&keys, 1000), number(5) as u32),
                _ => map.get(&keys, &probes(&keys, COUNTED), number(5) as u32),
            };
            println!("{answer}");
        }
        "peak" => {
            let map = if words[1] == "std" {
                Map::Std
            } else {
                Map::Index
            };
            let least = map.queue(number(2) as u32, number(3) as u32);
            println!("{least} {}", peak());
        }
        _ => {
            for at in 1..words.len() {
                for order in ["ascending", "random"] {
                    let [std, index] = times(order, number(at));
                    println!("{order} {} {std:.1} {index:.1}", number(at));
                }
            }
        }
    }
}
