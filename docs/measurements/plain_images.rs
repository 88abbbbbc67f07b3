//! What a plain slave takes that publishes its image: a write of one byte, and a task's read of the whole image. The image is kept in
//! three ways: behind an `ArcSwap`, of which a write makes a new one; behind a lock, which readers take too; and in place, where
//! nobody else reads (a plain copy by words). `plain_images BYTES ROUNDS` prints nanoseconds, the best round and the middle one.
use arc_swap::ArcSwap;
use std::hint::black_box;
use std::sync::{Arc, Mutex};
use std::time::Instant;

/// A call is stored with its answer, as a journal would, in so many bytes.
const STORED: usize = 32;

struct Times(Vec<f64>);

impl Times {
    fn of(rounds: usize, turns: usize, mut turn: impl FnMut(usize)) -> Times {
        let mut all: Vec<f64> = (0..rounds)
            .map(|round| {
                let start = Instant::now();
                for at in 0..turns {
                    turn(round * turns + at);
                }
                start.elapsed().as_nanos() as f64 / turns as f64
            })
            .collect();
        all.sort_by(f64::total_cmp);
        Times(all)
    }

    fn print(&self, what: &str) {
        println!("{what}: {:.0} ns, the middle round {:.0}", self.0[0], self.0[self.0.len() / 2]);
    }
}

/// The slave's own part of a write: the byte in its page, and the call in its journal.
fn write(page: &mut [u8], journal: &mut Vec<u8>, at: usize) {
    page[0] = at as u8;
    if journal.len() + STORED > journal.capacity() {
        journal.clear();
    }
    journal.extend_from_slice(&[at as u8; STORED]);
}

fn main() {
    let words: Vec<usize> = std::env::args().skip(1).map(|word| word.parse().expect("BYTES ROUNDS")).collect();
    let (bytes, rounds) = (words[0], words[1]);
    let turns = (200_000_000 / (bytes + 20_000)).clamp(20, 2000);
    let mut page = vec![0u8; bytes];
    let mut journal = Vec::with_capacity(1 << 22);
    let mut out = vec![0u64; bytes / 8];

    let swap = ArcSwap::from_pointee(page.clone());
    Times::of(rounds, turns, |at| {
        write(&mut page, &mut journal, at);
        swap.store(Arc::new(page.clone()));
    })
    .print("a byte written, ArcSwap");
    let mut copied = vec![0u8; bytes];
    Times::of(rounds, turns, |_| {
        copied.copy_from_slice(&swap.load());
        black_box(&copied);
    })
    .print("an image read, ArcSwap");

    let lock = Mutex::new(page.clone());
    Times::of(rounds, turns, |at| {
        let mut held = lock.lock().unwrap();
        write(&mut held, &mut journal, at);
    })
    .print("a byte written, a lock");
    Times::of(rounds, turns, |_| {
        copied.copy_from_slice(&lock.lock().unwrap());
        black_box(&copied);
    })
    .print("an image read, a lock");

    let image: Vec<u64> = vec![7; bytes / 8];
    Times::of(rounds, turns, |_| {
        for (to, from) in out.iter_mut().zip(black_box(&image)) {
            *to = *from;
        }
        black_box(&out);
    })
    .print("an image copied word by word");
}
