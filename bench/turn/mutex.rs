// The work of `bench/parts` at a cell over `std::sync::Mutex`: so many workers push so many entries each on one list.
use std::sync::{Arc, Mutex};
use std::time::Instant;
use std::{env, thread};

struct Entry {
    worker: u32,
    number: u32,
}

fn main() {
    let words: Vec<u32> = env::args().skip(1).map(|word| word.parse().unwrap()).collect();
    let (workers, turns) = (words[0], words[1]);
    let list = Arc::new(Mutex::new(Vec::new()));
    let start = Instant::now();
    let threads: Vec<_> = (0..workers)
        .map(|worker| {
            let list = list.clone();
            thread::spawn(move || {
                for number in 0..turns {
                    list.lock().unwrap().push(Entry { worker, number });
                }
            })
        })
        .collect();
    for each in threads {
        each.join().unwrap();
    }
    let took = start.elapsed();
    let list = list.lock().unwrap();
    assert!(list.iter().all(|entry| entry.worker < workers && entry.number < turns));
    println!("{} entries, {} ns", list.len(), took.as_nanos());
}
