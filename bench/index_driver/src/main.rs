//! Runs one task on one map: the index of this project, or one that keeps versions too.
//!
//! index_driver task MAP TASK KEYS PROBES ROUNDS: the task, for callgrind; prints a sum of what was read
//! index_driver times TASK KEYS PROBES ROUNDS MAP..: processor nanoseconds of a round, the least of some runs in which the
//! maps take turns, less those of a run without rounds

mod maps;

use maps::{Concread, Copied, Im, Versions};
use std::hint::black_box;

unsafe extern "C" {
    fn local_bench_16(k: *const u64, n: usize, p: *const u64, m: usize, task: u32, rounds: u32, slots: usize) -> u64;
    fn local_bench_30(k: *const u64, n: usize, p: *const u64, m: usize, task: u32, rounds: u32, slots: usize) -> u64;
    fn local_bench_60(k: *const u64, n: usize, p: *const u64, m: usize, task: u32, rounds: u32, slots: usize) -> u64;
    fn local_bench_64(k: *const u64, n: usize, p: *const u64, m: usize, task: u32, rounds: u32, slots: usize) -> u64;
    fn local_bench_225(k: *const u64, n: usize, p: *const u64, m: usize, task: u32, rounds: u32, slots: usize) -> u64;
}

/// The tasks, by the numbers that the library has for them.
const TASKS: [&str; 10] =
    ["build", "get", "open", "range", "walk", "record", "commit-each", "commit-all", "clear", "cut"];

/// How often a time is measured; the least counts. Of a million keys, building alone takes most of a second.
fn runs(keys: usize) -> usize {
    if keys < 1_000_000 { 7 } else { 3 }
}

/// Numbers spread over all of 64 bits, each once.
fn spread(number: u64) -> u64 {
    let mut bits = number.wrapping_add(1).wrapping_mul(0x9E37_79B9_7F4A_7C15);
    bits = (bits ^ (bits >> 30)).wrapping_mul(0xBF58_476D_1CE4_E5B9);
    bits = (bits ^ (bits >> 27)).wrapping_mul(0x94D0_49BB_1331_11EB);
    bits ^ (bits >> 31)
}

/// Keys to look up or to write: those of a map in no order, or the one in its middle, from which on half of it is cut.
fn probes(keys: &[u64], task: &str, count: usize) -> Vec<u64> {
    if task == "cut" {
        let mut sorted = keys.to_vec();
        sorted.sort_unstable();
        return vec![sorted[sorted.len() / 2]];
    }
    (0..count as u64).map(|i| keys[(spread(i ^ 0xabcdef) % keys.len() as u64) as usize]).collect()
}

/// As many slots as four versions want, and some.
fn slots(width: usize, keys: usize) -> usize {
    4 * (2 * (keys / (width + 1)) + 2) + 64
}

fn index(width: usize, keys: &[u64], probes: &[u64], task: &str, rounds: u32) -> u64 {
    let run = match width {
        16 => local_bench_16,
        30 => local_bench_30,
        60 => local_bench_60,
        64 => local_bench_64,
        _ => local_bench_225,
    };
    let number = TASKS.iter().position(|it| *it == task).expect("a task") as u32;
    let slots = slots(width, keys.len());
    unsafe { run(keys.as_ptr(), keys.len(), probes.as_ptr(), probes.len(), number, rounds, slots) }
}

/// Commits beside a snapshot that was opened before.
fn beside<V: Versions>(map: &V, commit: impl FnOnce(&V)) {
    let snapshot = map.open();
    commit(map);
    drop(black_box(snapshot));
}

fn round<V: Versions>(map: &V, probes: &[u64], task: &str) -> u64 {
    let mut sum = 0u64;
    match task {
        "get" | "record" => {
            let snapshot = map.open();
            for probe in probes {
                sum = sum.wrapping_add(V::get(&snapshot, *probe).unwrap_or(1));
            }
        }
        "open" => probes.iter().for_each(|_| drop(black_box(map.open()))),
        "range" => {
            let snapshot = map.open();
            for probe in probes {
                sum = sum.wrapping_add(V::sum(&snapshot, *probe, 100));
            }
        }
        "walk" => sum = V::sum(&map.open(), 0, usize::MAX),
        "commit-each" => {
            for probe in probes {
                beside(map, |map| map.upsert(&mut std::iter::once((*probe, 7))));
            }
        }
        "commit-all" => beside(map, |map| map.upsert(&mut probes.iter().map(|probe| (*probe, 7)))),
        "clear" => beside(map, V::clear),
        "cut" => beside(map, |map| map.cut(probes[0])),
        _ => {}
    }
    sum
}

fn built<V: Versions>(keys: &[u64]) -> V {
    let map = V::new();
    for thousand in keys.chunks(1000) {
        map.upsert(&mut thousand.iter().map(|key| (*key, *key)));
    }
    map
}

/// Some rounds, in a function of its own, so that callgrind can count what it runs, and nothing else.
#[inline(never)]
fn rounds_of<V: Versions>(map: &V, probes: &[u64], task: &str, rounds: u32) -> u64 {
    (0..rounds).fold(0u64, |sum, _| sum.wrapping_add(round(map, probes, task)))
}

fn peer<V: Versions>(keys: &[u64], probes: &[u64], task: &str, rounds: u32) -> u64 {
    let map = built::<V>(keys);
    // a first round of what commits or records isn't counted: in it the allocator sorts what building gave back
    if task.starts_with("commit") || task == "record" {
        black_box(round(&map, probes, task));
    }
    rounds_of(&map, probes, task, rounds)
}

fn run(map: &str, keys: &[u64], probes: &[u64], task: &str, rounds: u32) -> u64 {
    match map {
        "im" => peer::<Im>(keys, probes, task, rounds),
        "concread" => peer::<Concread>(keys, probes, task, rounds),
        "copied" => peer::<Copied>(keys, probes, task, rounds),
        width => index(width.parse().expect("a width"), keys, probes, task, rounds),
    }
}

fn processor() -> f64 {
    let mut time = libc::timespec { tv_sec: 0, tv_nsec: 0 };
    unsafe { libc::clock_gettime(libc::CLOCK_PROCESS_CPUTIME_ID, &mut time) };
    time.tv_sec as f64 * 1e9 + time.tv_nsec as f64
}

fn times(task: &str, keys: &[u64], probes: &[u64], rounds: u32, maps: &[String]) {
    let mut least = vec![[f64::MAX; 2]; maps.len()];
    for _ in 0..runs(keys.len()) {
        for (map, least) in maps.iter().zip(&mut least) {
            for (with, least) in [0, rounds].into_iter().zip(least) {
                let start = processor();
                black_box(run(map, keys, probes, task, with));
                *least = least.min(processor() - start);
            }
        }
    }
    let row: Vec<String> =
        least.iter().map(|[none, all]| if task == "build" { *none } else { (all - none) / f64::from(rounds) })
            .map(|time| format!("{time:.1}")).collect();
    println!("{}", row.join(" "));
}

fn main() {
    let words: Vec<String> = std::env::args().skip(1).collect();
    let number = |at: usize| words[at].parse::<u64>().expect("a number");
    let keys = |count: u64| (0..count).map(spread).collect::<Vec<u64>>();
    match words[0].as_str() {
        "task" => {
            let keys = keys(number(3));
            let probes = probes(&keys, &words[2], number(4) as usize);
            println!("{}", run(&words[1], &keys, &probes, &words[2], number(5) as u32));
        }
        "times" => {
            let keys = keys(number(2));
            let probes = probes(&keys, &words[1], number(3) as usize);
            times(&words[1], &keys, &probes, number(4) as u32, &words[5..]);
        }
        _ => panic!("task or times"),
    }
}
