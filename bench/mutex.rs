// What turns cost with the Mutex of Rust's std: so many threads lock one counter so often each, and raise it by one.
// Its words are how many threads there are, and how many turns each takes. It prints the counter.
use std::sync::Mutex;
use std::thread;

fn main() {
    let words: Vec<u32> = std::env::args().skip(1).map(|word| word.parse().unwrap_or(0)).collect();
    let (threads, times) = match words[..] {
        [threads, times] => (threads, times),
        _ => (1, 0),
    };
    let counter = Mutex::new(0u64);
    thread::scope(|scope| {
        for _ in 0..threads {
            scope.spawn(|| {
                for _ in 0..times {
                    *counter.lock().unwrap() += 1;
                }
            });
        }
    });
    println!("{}", counter.into_inner().unwrap());
}
