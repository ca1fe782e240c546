//! The peer of `bench turns`: threads that share one book under a `std::sync::Mutex`, each with so many turns that only begin a
//! request. Built and run by `bench/turns.py`.
use std::sync::Mutex;
use std::time::Instant;

struct Book {
    epoch: u64,
    events: Vec<u64>,
    bytes: u64,
}

#[derive(Clone, Copy)]
struct Pass {
    who: u32,
    epoch: u64,
}

impl Book {
    /// The epoch turns where half of the events or half of the bytes are used.
    fn begin(&mut self, who: u32) -> Pass {
        if (2 * self.events.len() >= 64 || 2 * self.bytes >= 4096) && self.epoch != u64::MAX {
            self.epoch += 1;
            self.events.clear();
            self.bytes = 0;
        }
        Pass { who, epoch: self.epoch }
    }
}

fn main() {
    let mut words = std::env::args().skip(1);
    let threads: u32 = words.next().unwrap().parse().unwrap();
    let turns: u32 = words.next().unwrap().parse().unwrap();
    let book = Mutex::new(Book { epoch: 0, events: Vec::with_capacity(64), bytes: 0 });
    let start = Instant::now();
    std::thread::scope(|scope| {
        for who in 0..threads {
            let book = &book;
            scope.spawn(move || {
                for _ in 0..turns {
                    let pass = book.lock().unwrap().begin(who);
                    std::hint::black_box((pass.who, pass.epoch));
                }
            });
        }
    });
    let spent = start.elapsed().as_nanos();
    let all = u64::from(threads) * u64::from(turns);
    println!("turns {threads} threads {all} turns {spent} ns, epoch {}", book.lock().unwrap().epoch);
}
