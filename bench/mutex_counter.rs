// The counter of bench/turn.sh under std's Mutex: THREADS threads take the lock TURNS times each and add 1.
use std::sync::Mutex;
use std::thread;

fn main() {
    let words: Vec<String> = std::env::args().collect();
    let threads: u32 = words[1].parse().unwrap();
    let turns: usize = words[2].parse().unwrap();
    let ones = vec![1u32; turns];
    let counter = Mutex::new(0u64);
    thread::scope(|scope| {
        for _ in 0..threads {
            scope.spawn(|| {
                for x in &ones {
                    let mut count = counter.lock().unwrap();
                    *count = count.wrapping_add(u64::from(*x));
                }
            });
        }
    });
    println!("{threads} threads of {turns} turns: {}", counter.into_inner().unwrap());
}
