// The same calls on `Arc`s: `arcs WHAT THREADS CALLS`, where WHAT is `new` (and drop), `clone` (and drop) or `get_mut`.
use std::hint::black_box;
use std::sync::Arc;
use std::thread;

fn work(what: &str, mut arc: Arc<u64>, calls: u64) -> u64 {
    let mut wrong = 0;
    match what {
        "new" => {
            for call in 0..calls {
                drop(black_box(Arc::new(call)));
            }
        }
        "clone" => {
            for _ in 0..calls {
                drop(black_box(arc.clone()));
            }
        }
        _ => {
            for call in 0..calls {
                match Arc::get_mut(black_box(&mut arc)) {
                    Some(place) => *place = call,
                    None => wrong += 1,
                }
            }
        }
    }
    wrong
}

fn main() {
    let words: Vec<String> = std::env::args().collect();
    let (what, threads, calls) = (words[1].clone(), words[2].parse().unwrap(), words[3].parse().unwrap());
    let first = Arc::new(0u64);
    if threads == 1 {
        println!("{}", work(&what, first, calls));
        return;
    }
    let workers: Vec<_> = (0..threads)
        .map(|_: u64| {
            let arc = if what == "clone" { first.clone() } else { Arc::new(0) };
            let what = what.clone();
            thread::spawn(move || work(&what, arc, calls))
        })
        .collect();
    let wrong: u64 = workers.into_iter().map(|worker| worker.join().unwrap()).sum();
    println!("{wrong}");
}
