//! Commits of one upsert by how they end, for `refusals`: behind the export `local_bench_endings` of the crate `local_bench`.
//!
//! refusals ENDING PAIRS PROBES ROUNDS: makes so many commits in each round, and prints how many ended so.

// Nothing checks this against the crate's source. A slice crosses as a pointer and a length.
unsafe extern "C" {
    fn local_bench_endings(
        keys: *const u64,
        len: usize,
        probes: *const u64,
        count: usize,
        ending: u32,
        rounds: u32,
    ) -> u64;
}

/// Numbers spread over all of 64 bits, each once.
fn spread(number: u64) -> u64 {
    let mut bits = number.wrapping_add(1).wrapping_mul(0x9E37_79B9_7F4A_7C15);
    bits = (bits ^ (bits >> 30)).wrapping_mul(0xBF58_476D_1CE4_E5B9);
    bits = (bits ^ (bits >> 27)).wrapping_mul(0x94D0_49BB_1331_11EB);
    bits ^ (bits >> 31)
}

fn main() {
    let words: Vec<u64> = std::env::args().skip(1).map(|word| word.parse().expect("a number")).collect();
    let [ending, pairs, probes, rounds] = words[..] else {
        panic!("refusals ENDING PAIRS PROBES ROUNDS");
    };
    let mut keys: Vec<u64> = (0..pairs).map(spread).collect();
    keys.sort_unstable();
    let probes: Vec<u64> =
        (0..probes).map(|at| keys[(spread(at ^ 0xabcdef) % pairs) as usize]).collect();
    // SAFETY: the call has no conditions, and the slices are live in it.
    let ended = unsafe {
        local_bench_endings(
            keys.as_ptr(),
            keys.len(),
            probes.as_ptr(),
            probes.len(),
            ending as u32,
            rounds as u32,
        )
    };
    println!("{ended}");
}
