// The same draws in plain Rust. Each line: threads, draws, nanoseconds, and what was seen.
use std::sync::atomic::{AtomicU64, Ordering::SeqCst};
use std::thread;
use std::time::Instant;

const DRAWS: u64 = 20_000_000;

struct Pass {
    left: u64,
}

fn draw(counter: &AtomicU64, pass: &mut Pass) -> Option<u64> {
    if pass.left == 0 {
        return None;
    }
    let number = counter.fetch_add(1, SeqCst);
    pass.left -= 1;
    Some(number)
}

fn draw_all(counter: &AtomicU64, mut pass: Pass) -> u64 {
    let mut seen = 0;
    while let Some(number) = draw(counter, &mut pass) {
        seen ^= number;
    }
    seen
}

fn main() {
    for threads in [1, 4] {
        let counter = AtomicU64::new(0);
        let start = Instant::now();
        let seen = thread::scope(|scope| {
            let drawing: Vec<_> = (1..threads)
                .map(|_| scope.spawn(|| draw_all(&counter, Pass { left: DRAWS / threads })))
                .collect();
            let own = draw_all(&counter, Pass { left: DRAWS / threads });
            drawing.into_iter().fold(own, |seen, one| seen ^ one.join().unwrap())
        });
        println!("{threads} {DRAWS} {} {seen}", start.elapsed().as_nanos());
    }
}
