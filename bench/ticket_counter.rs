// The counter of bench/turn.sh under a fair ticket lock: THREADS threads take it TURNS times each, in the order in which they asked, and add 1.
// A waiter looks LOOKS times, and then gives its processor away each time.
use std::cell::UnsafeCell;
use std::sync::atomic::{AtomicU64, Ordering::SeqCst};
use std::{hint, thread};

const LOOKS: u32 = 1_000;

#[repr(align(64))]
struct Line(AtomicU64);

struct Ticket {
    next: Line,
    served: Line,
    count: UnsafeCell<u64>,
}

unsafe impl Sync for Ticket {}

impl Ticket {
    fn add(&self, x: u32) {
        let mine = self.next.0.fetch_add(1, SeqCst);
        let mut looks = 0;
        while self.served.0.load(SeqCst) != mine {
            if looks < LOOKS {
                looks += 1;
                hint::spin_loop();
            } else {
                thread::yield_now();
            }
        }
        unsafe { *self.count.get() = (*self.count.get()).wrapping_add(u64::from(x)) };
        self.served.0.store(mine.wrapping_add(1), SeqCst);
    }
}

fn main() {
    let words: Vec<String> = std::env::args().collect();
    let threads: u32 = words[1].parse().unwrap();
    let turns: usize = words[2].parse().unwrap();
    let ones = vec![1u32; turns];
    let counter = Ticket {
        next: Line(AtomicU64::new(0)),
        served: Line(AtomicU64::new(0)),
        count: UnsafeCell::new(0),
    };
    thread::scope(|scope| {
        for _ in 0..threads {
            scope.spawn(|| ones.iter().for_each(|x| counter.add(*x)));
        }
    });
    println!("{threads} threads of {turns} turns: {}", counter.count.into_inner());
}
