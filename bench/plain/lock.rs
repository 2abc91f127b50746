//! The visits of bench_tables' lock in plain Rust, without proofs, behind a `std::sync::Mutex`. bench/lock times it beside
//! it, with the same numbers.
use std::hint::black_box;
use std::sync::Mutex;

struct Counted<B> {
    visits: u64,
    bulk: B,
}

#[inline(never)]
fn visit<B>(lock: &Mutex<Counted<B>>) {
    if let Ok(mut state) = lock.lock() {
        state.visits = state.visits.wrapping_add(1);
    }
}

fn visit_all<B>(bulk: B, times: u64) -> u64 {
    let lock = Mutex::new(Counted { visits: 0, bulk });
    for _ in 0..times {
        visit(black_box(&lock));
    }
    let Ok(state) = lock.into_inner() else { return 0 };
    black_box(state.bulk);
    state.visits
}

fn main() {
    let mut words = std::env::args().skip(1).map(|word| word.parse().unwrap_or(0u64));
    let what = words.next().unwrap_or(0);
    let times = words.next().unwrap_or(1);
    let visits = match what {
        0 => visit_all([0u64; 7], times),
        1 => visit_all([0u64; 127], times),
        _ => visit_all(Box::new([0u64; 127]), times),
    };
    println!("{visits}");
}
