//! Opens and closes guards of crossbeam-epoch, and places and retires items, and times these beside those of the crate `domain_bench`, for `guards`.
//!
//! `guards THREADS KIND ROUNDS` runs the rounds of `domain_bench` with guards of crossbeam-epoch. `guards times PROGRAM
//! THREADS..` prints for each kind and number of threads what a round costs here and in the other program.
use crossbeam_epoch::{Atomic, Guard, Owned, Shared, pin};
use crossbeam_queue::SegQueue;
use std::hint::black_box;
use std::process::Command;
use std::sync::Arc;
use std::sync::atomic::AtomicU64;
use std::sync::atomic::Ordering::{AcqRel, Acquire, Relaxed, SeqCst};
use std::time::Instant;

/// The kinds of guards, and how many rounds of each are timed.
const KINDS: [(&str, u32); 11] = [
    ("plain", 10_000_000),
    ("accelerated", 2_000_000),
    ("nested", 50_000_000),
    ("items", 1_000_000),
    ("loads", 10_000_000),
    ("load", 50_000_000),
    ("swaps", 1_000_000),
    ("swap", 10_000_000),
    ("clones", 10_000_000),
    ("stack", 1_000_000),
    ("queue", 1_000_000),
];

/// The participants of a place in which one thread's items are timed.
const PARTICIPANTS: [u32; 4] = [1, 4, 16, 64];

/// So many guards one by one, within the one that may be open: the sum of what was read under them.
#[inline(never)]
fn passes(word: &AtomicU64, accelerated: bool, rounds: u32) -> u64 {
    let mut sum = 0u64;
    for _ in 0..rounds {
        let guard = pin();
        sum = sum.wrapping_add(word.load(SeqCst));
        if accelerated {
            guard.flush();
        }
    }
    sum
}

/// So many items one by one, each placed, read and retired under a guard: the sum of what was read.
#[inline(never)]
fn items(rounds: u32) -> u64 {
    let mut sum = 0u64;
    for i in 0..rounds {
        let guard = pin();
        let item = Owned::new(u64::from(i)).into_shared(&guard);
        // SAFETY: nobody else has the item, and it is read under the guard.
        sum = sum.wrapping_add(*unsafe { item.deref() });
        // SAFETY: no other pointer to it is left.
        unsafe { guard.defer_destroy(item) };
        guard.flush();
    }
    sum
}

/// So many guards one by one, under each of which the cell is loaded and what it names is read: the sum of that.
#[inline(never)]
fn loads(cell: &Atomic<u64>, rounds: u32) -> u64 {
    let mut sum = 0u64;
    for _ in 0..rounds {
        let guard = pin();
        // SAFETY: what is loaded isn't destroyed while the guard is pinned.
        let item = unsafe { cell.load(SeqCst, &guard).as_ref() };
        sum = sum.wrapping_add(item.copied().unwrap_or(0));
    }
    sum
}

/// So many items one by one, each swapped into the cell: the sum of those that came out, which are retired.
#[inline(never)]
fn swaps(cell: &Atomic<u64>, rounds: u32) -> u64 {
    let mut sum = 0u64;
    for i in 0..rounds {
        let guard = pin();
        let old = cell.swap(Owned::new(u64::from(i)), SeqCst, &guard);
        // SAFETY: it was in the cell, and is destroyed once no guard reads it.
        sum = sum.wrapping_add(unsafe { old.as_ref() }.copied().unwrap_or(0));
        // SAFETY: no other pointer to it is left.
        unsafe { guard.defer_destroy(old) };
        guard.flush();
    }
    sum
}

/// So many loads of the cell under one guard, and reads of what it names: the sum of that.
#[inline(never)]
fn loads_under(cell: &Atomic<u64>, guard: &Guard, rounds: u32) -> u64 {
    let mut sum = 0u64;
    for _ in 0..rounds {
        // SAFETY: what is loaded isn't destroyed while the guard is pinned.
        let item = unsafe { cell.load(SeqCst, guard).as_ref() };
        sum = sum.wrapping_add(item.copied().unwrap_or(0));
    }
    sum
}

/// So many pointers one by one, swapped with the one that the cell has: the sum of what those are to that came out.
#[inline(never)]
fn swaps_pointers(cell: &Atomic<u64>, guard: &Guard, rounds: u32) -> u64 {
    let mut mine = Owned::new(2u64).into_shared(guard);
    let mut sum = 0u64;
    for _ in 0..rounds {
        mine = cell.swap(mine, SeqCst, guard);
        // SAFETY: nobody else has it.
        sum = sum.wrapping_add(*unsafe { mine.deref() });
    }
    // SAFETY: no other pointer to it is left.
    unsafe { guard.defer_destroy(mine) };
    sum
}

/// So many counted pointers one by one, beside one that stays, to the same item: the sum of what they read. crossbeam-epoch
/// counts no owners, so this is the standard library's `Arc`.
#[inline(never)]
fn clones(owner: &Arc<u64>, rounds: u32) -> u64 {
    let mut sum = 0u64;
    for _ in 0..rounds {
        let other = Arc::clone(black_box(owner));
        sum = sum.wrapping_add(*other);
    }
    sum
}

/// A stack after Treiber.
struct Stack {
    first: Atomic<Entry>,
}

struct Entry {
    value: u64,
    next: Atomic<Entry>,
}

impl Stack {
    fn push(&self, value: u64) {
        let mut entry = Owned::new(Entry { value, next: Atomic::null() });
        let guard = pin();
        loop {
            let first = self.first.load(Acquire, &guard);
            entry.next.store(first, Relaxed);
            match self.first.compare_exchange(first, entry, AcqRel, Acquire, &guard) {
                Ok(_) => return,
                Err(refused) => entry = refused.new,
            }
        }
    }

    fn pop(&self) -> Option<u64> {
        let guard = pin();
        loop {
            let first = self.first.load(Acquire, &guard);
            // SAFETY: what is loaded isn't destroyed while the guard is pinned.
            let entry = unsafe { first.as_ref() }?;
            let next = entry.next.load(Acquire, &guard);
            if self.first.compare_exchange(first, next, AcqRel, Acquire, &guard).is_ok() {
                // SAFETY: it was taken out, by this thread alone.
                unsafe { guard.defer_destroy(first) };
                return Some(entry.value);
            }
        }
    }
}

/// So many numbers one by one, each pushed on the stack before one is popped: the sum of those that were popped.
#[inline(never)]
fn on_stack(stack: &Stack, rounds: u32) -> u64 {
    let mut sum = 0u64;
    for i in 0..rounds {
        stack.push(u64::from(i));
        sum = sum.wrapping_add(stack.pop().unwrap_or(0));
    }
    sum
}

/// The same with a queue.
#[inline(never)]
fn on_queue(queue: &SegQueue<u64>, rounds: u32) -> u64 {
    let mut sum = 0u64;
    for i in 0..rounds {
        queue.push(u64::from(i));
        sum = sum.wrapping_add(queue.pop().unwrap_or(0));
    }
    sum
}

/// Rounds with a cell that owns 1 at first.
fn with_cell(kind: &str, rounds: u32) -> u64 {
    let cell = Atomic::new(1u64);
    let sum = match kind {
        "swaps" => swaps(&cell, rounds),
        "load" => loads_under(&cell, &pin(), rounds),
        "swap" => swaps_pointers(&cell, &pin(), rounds),
        _ => loads(&cell, rounds),
    };
    let guard = pin();
    let last = cell.swap(Shared::null(), SeqCst, &guard);
    // SAFETY: no other pointer to it is left.
    unsafe { guard.defer_destroy(last) };
    sum
}

/// What all threads share.
struct Scene {
    word: AtomicU64,
    stack: Stack,
    queue: SegQueue<u64>,
}

/// The rounds of one thread.
fn work(scene: &Scene, kind: &str, rounds: u32) -> u64 {
    match kind {
        "items" => return items(rounds),
        "loads" | "load" | "swaps" | "swap" => return with_cell(kind, rounds),
        "clones" => return clones(&Arc::new(1), rounds),
        "stack" => return on_stack(&scene.stack, rounds),
        "queue" => return on_queue(&scene.queue, rounds),
        _ => {}
    }
    let outer = (kind == "nested").then(pin);
    let sum = passes(&scene.word, kind == "accelerated", rounds);
    drop(outer);
    sum
}

/// The rounds of so many threads.
fn run(threads: u32, kind: &str, rounds: u32) -> u64 {
    let scene = Scene {
        word: AtomicU64::new(0),
        stack: Stack { first: Atomic::null() },
        queue: SegQueue::new(),
    };
    std::thread::scope(|scope| {
        let others: Vec<_> = (1..threads)
            .map(|_| scope.spawn(|| work(&scene, kind, rounds)))
            .collect();
        let mine = work(&scene, kind, rounds);
        let theirs = others.into_iter().map(|it| it.join().expect("a thread"));
        theirs.fold(mine, u64::wrapping_add)
    })
}

/// The nanoseconds of processors that ended processes have had.
fn used_by_children() -> f64 {
    #[repr(C)]
    #[derive(Default)]
    struct Usage {
        seconds_and_microseconds: [i64; 4],
        others: [i64; 14],
    }
    unsafe extern "C" {
        fn getrusage(who: i32, usage: *mut Usage) -> i32;
    }
    const CHILDREN: i32 = -1;
    let mut usage = Usage::default();
    // SAFETY: `usage` is a place for the answer.
    assert_eq!(unsafe { getrusage(CHILDREN, &mut usage) }, 0);
    let [user, user_part, system, system_part] = usage.seconds_and_microseconds;
    (user + system) as f64 * 1e9 + (user_part + system_part) as f64 * 1e3
}

/// What is measured. A `Domain` has so many participants.
#[derive(Clone, Copy)]
struct Task<'k> {
    threads: u32,
    kind: &'k str,
    participants: u32,
}

/// What a run of a program costs, in nanoseconds: of processors, and by the clock. The program's answer has to be this
/// one, if there is one.
fn cost(program: &str, task: Task, rounds: u32, wanted: Option<u64>) -> [f64; 2] {
    let (used, start) = (used_by_children(), Instant::now());
    let Task { threads, kind, participants } = task;
    let words = [threads.to_string(), kind.to_string(), rounds.to_string(), participants.to_string()];
    let output = Command::new(program).args(words).output().expect(program);
    let wall = start.elapsed().as_nanos() as f64;
    let answer = String::from_utf8_lossy(&output.stdout);
    assert!(output.status.success(), "{program} failed: {kind}");
    if let Some(wanted) = wanted {
        assert_eq!(answer.trim(), wanted.to_string(), "{program}: {kind}");
    }
    [used_by_children() - used, wall]
}

/// What that adds up to that one thread reads: its items, or epochs, if each accelerated guard raises the count by one.
fn sum_of(kind: &str, rounds: u32) -> u64 {
    let rounds = u64::from(rounds);
    match kind {
        "items" | "stack" | "queue" => (0..rounds).sum(),
        "loads" | "load" | "clones" => rounds,
        // The 1 that was there, and all but the last one that came.
        "swaps" => if rounds == 0 { 0 } else { 1 + (0..rounds - 1).sum::<u64>() },
        // The 1 that was there and the 2 that came take turns.
        "swap" => rounds + rounds / 2,
        "accelerated" => (0..rounds).map(|count| count % 64).sum(),
        _ => 0,
    }
}

/// What a round costs in each of two programs, of a processor and by the clock: the least of some runs, which take turns,
/// less the least without rounds.
fn times(programs: [&str; 2], task: Task, rounds: u32) -> [[f64; 2]; 2] {
    let mut least = [[[f64::MAX; 2]; 2]; 2];
    for _ in 0..7 {
        for (at, program) in programs.iter().enumerate() {
            for (rounds, least) in [0, rounds].into_iter().zip(&mut least[at]) {
                let wanted = (at == 1 && task.threads == 1).then(|| sum_of(task.kind, rounds));
                let found = cost(program, task, rounds, wanted);
                *least = [least[0].min(found[0]), least[1].min(found[1])];
            }
        }
    }
    let rounds = f64::from(rounds);
    least.map(|[without, with]| {
        let processor = (with[0] - without[0]) / (rounds * f64::from(task.threads));
        [processor, (with[1] - without[1]) / rounds]
    })
}

/// Prints what a round costs in both.
fn show(name: &str, programs: [&str; 2], task: Task, rounds: u32) {
    let [crossbeam, domain] = times(programs, task, rounds);
    println!("{name} {:.2} {:.2} {:.2} {:.2}", crossbeam[0], domain[0], crossbeam[1], domain[1]);
}

fn main() {
    let words: Vec<String> = std::env::args().collect();
    let number = |at: usize| -> u32 { words[at].parse().expect("a number") };
    if words[1] != "times" {
        println!("{}", run(number(1), &words[2], number(3)));
        return;
    }
    let programs = [words[0].as_str(), words[2].as_str()];
    for (kind, rounds) in KINDS {
        for threads in (3..words.len()).map(number) {
            let task = Task { threads, kind, participants: threads };
            show(&format!("{kind} {threads}"), programs, task, rounds);
        }
    }
    for participants in PARTICIPANTS {
        let task = Task { threads: 1, kind: "items", participants };
        show(&format!("participants {participants}"), programs, task, 1_000_000);
    }
}
