//! The runs of `shared_bench` on maps that threads share: threads_driver MAP PAIRS READERS GETS WRITES MILLISECONDS [GAP],
//! where MAP is im, concread or locked. It prints the same words, and with no reader makes so many rounds in one thread.

use arc_swap::{ArcSwap, Guard};
use concread::bptree::{BptreeMap, BptreeMapReadTxn};
use im_rc::OrdMap;
use std::collections::BTreeMap;
use std::sync::{Arc, Mutex, RwLock, RwLockReadGuard};
use std::time::{Duration, Instant};

/// A map that threads read by sessions, while one of them commits.
trait Shared: Sync {
    /// An open session. It ends where it is dropped.
    type Session<'s>
    where
        Self: 's;

    fn new() -> Self;
    fn open(&self) -> Self::Session<'_>;
    fn get(session: &Self::Session<'_>, key: u64) -> Option<u64>;
    fn commit(&self, writes: Vec<(u64, u64)>);
}

/// im's `OrdMap` behind an `ArcSwap`. A session is a `Guard`, which costs less than an `Arc` and is meant for sessions that
/// end soon.
struct Im {
    present: ArcSwap<OrdMap<u64, u64>>,
    writer: Mutex<()>,
}

impl Shared for Im {
    type Session<'s> = Guard<Arc<OrdMap<u64, u64>>>;

    fn new() -> Self {
        Im { present: ArcSwap::from_pointee(OrdMap::new()), writer: Mutex::new(()) }
    }

    fn open(&self) -> Self::Session<'_> {
        self.present.load()
    }

    fn get(session: &Self::Session<'_>, key: u64) -> Option<u64> {
        session.get(&key).copied()
    }

    fn commit(&self, writes: Vec<(u64, u64)>) {
        let _writer = self.writer.lock().unwrap();
        let mut map = (**self.present.load()).clone();
        for (key, value) in writes {
            map.insert(key, value);
        }
        self.present.store(Arc::new(map));
    }
}

/// concread's `BptreeMap`: a copy-on-write B+ tree with transactions.
struct Concread(BptreeMap<u64, u64>);

impl Shared for Concread {
    type Session<'s> = BptreeMapReadTxn<'s, u64, u64>;

    fn new() -> Self {
        Concread(BptreeMap::new())
    }

    fn open(&self) -> Self::Session<'_> {
        self.0.read()
    }

    fn get(session: &Self::Session<'_>, key: u64) -> Option<u64> {
        session.get(&key).copied()
    }

    fn commit(&self, writes: Vec<(u64, u64)>) {
        let mut map = self.0.write();
        for (key, value) in writes {
            map.insert(key, value);
        }
        map.commit();
    }
}

/// A `BTreeMap` behind an `RwLock`: a session keeps the committer out.
struct Locked(RwLock<BTreeMap<u64, u64>>);

impl Shared for Locked {
    type Session<'s> = RwLockReadGuard<'s, BTreeMap<u64, u64>>;

    fn new() -> Self {
        Locked(RwLock::new(BTreeMap::new()))
    }

    fn open(&self) -> Self::Session<'_> {
        self.0.read().unwrap()
    }

    fn get(session: &Self::Session<'_>, key: u64) -> Option<u64> {
        session.get(&key).copied()
    }

    fn commit(&self, writes: Vec<(u64, u64)>) {
        self.0.write().unwrap().extend(writes);
    }
}

fn key(number: u64) -> u64 {
    number.wrapping_add(1).wrapping_mul(0x9E37_79B9_7F4A_7C15)
}

fn next(state: u64) -> u64 {
    let a = state ^ (state << 13);
    let b = a ^ (a >> 7);
    b ^ (b << 17)
}

fn drawn(state: u64, pairs: u64) -> u64 {
    (state >> 32).wrapping_mul(pairs) >> 32
}

#[derive(Clone, Copy, Default)]
struct Sample {
    state: u64,
    sessions: u64,
    gets: u64,
    wrong: u64,
    sum: u64,
}

fn session<M: Shared>(map: &M, pairs: u64, gets: u64, mut sample: Sample) -> Sample {
    let session = map.open();
    for _ in 0..gets {
        sample.state = next(sample.state);
        let number = drawn(sample.state, pairs);
        match M::get(&session, key(number)) {
            Some(value) if value & 0xFFFF_FFFF == number => sample.sum = sample.sum.wrapping_add(value),
            _ => sample.wrong += 1,
        }
    }
    drop(session);
    Sample { sessions: sample.sessions + 1, gets: sample.gets + gets, ..sample }
}

fn drawing(pairs: u64, writes: u64, state: &mut u64) -> Vec<(u64, u64)> {
    let mut draw = |_| {
        *state = next(*state);
        let number = drawn(*state, pairs);
        (key(number), number | *state << 32)
    };
    (0..writes).map(&mut draw).collect()
}

/// Waits until an instant by looking at the clock over and over, and gives the time at which it was over.
fn wait_until(due: Instant) -> Instant {
    loop {
        let now = Instant::now();
        if now >= due {
            return now;
        }
    }
}

fn run<M: Shared>(words: &[u64]) {
    let (words, gap) = words.split_at(5);
    let [pairs, readers, gets, writes, last] = *words else { panic!("five numbers, and a gap") };
    let gap = Duration::from_micros(gap.first().copied().unwrap_or(0));
    let map = M::new();
    let most = (pairs / 8).max(1000);
    for from in (0..pairs).step_by(most as usize) {
        map.commit((from..pairs.min(from + most)).map(|number| (key(number), number)).collect());
    }
    let (mut all, mut times) = (Sample { state: 77, ..Sample::default() }, Vec::<u64>::new());
    if readers == 0 {
        let mut state = 5;
        for _ in 0..if writes == 0 { 0 } else { last } {
            map.commit(drawing(pairs, writes, &mut state));
        }
        for _ in 0..if writes == 0 { last } else { 1 } {
            all = session(&map, pairs, gets, all);
        }
    } else {
        let begin = Instant::now() + Duration::from_millis(100);
        let end = begin + Duration::from_millis(last);
        let turn = if gets == 0 { 1000 } else { (1000 / gets).max(1) };
        let map = &map;
        std::thread::scope(|scope| {
            let reads = |seed| move || {
                let mut sample = Sample { state: seed, ..Sample::default() };
                loop {
                    let now = Instant::now();
                    if now >= end {
                        return sample;
                    }
                    for _ in 0..turn {
                        sample = session(map, pairs, gets, sample);
                    }
                    if now < begin {
                        sample = Sample { state: sample.state, ..Sample::default() };
                    }
                }
            };
            let threads: Vec<_> = (0..readers).map(|i| scope.spawn(reads(i + 77))).collect();
            let (mut state, mut due) = (5, Instant::now());
            while writes > 0 {
                let pairs = drawing(pairs, writes, &mut state);
                let from = wait_until(due);
                if from >= end {
                    break;
                }
                due = from + gap;
                map.commit(pairs);
                if from >= begin {
                    times.push(from.elapsed().as_nanos() as u64);
                }
            }
            for thread in threads {
                let one = thread.join().unwrap();
                all.sessions += one.sessions;
                all.gets += one.gets;
                all.wrong += one.wrong;
                all.sum = all.sum.wrapping_add(one.sum);
            }
        });
    }
    times.sort_unstable();
    let within = |one_in: usize| times.get((times.len() - times.len() / one_in).saturating_sub(1)).copied().unwrap_or(0);
    let (half, most, nearly) = (within(2), within(100), within(1000));
    println!("{} {} {} {} 0 {half} {most} {nearly} {}", all.gets, all.sessions, all.wrong, times.len(), all.sum);
}

fn main() {
    let words: Vec<String> = std::env::args().skip(1).collect();
    let numbers: Vec<u64> = words[1..].iter().map(|it| it.parse().expect("a number")).collect();
    match words[0].as_str() {
        "im" => run::<Im>(&numbers),
        "concread" => run::<Concread>(&numbers),
        "locked" => run::<Locked>(&numbers),
        other => panic!("no map is {other}"),
    }
}
