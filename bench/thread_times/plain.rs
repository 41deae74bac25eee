//! The same work as `src/main.rt` in plain Rust: 256 atomic words, and a mutex for the turn.
use std::sync::Mutex;
use std::sync::atomic::{AtomicU64, Ordering};
use std::thread::scope;

fn main() {
    let words: Vec<String> = std::env::args().collect();
    let threads: usize = words[2].parse().unwrap();
    let times: u32 = words[3].parse().unwrap();
    let cells: Vec<AtomicU64> = (0..256).map(|_| AtomicU64::new(0)).collect();
    let value = Mutex::new(Vec::<u32>::new());
    scope(|all| {
        for at in 0..threads {
            let cell = match words[1].as_str() {
                "own" => Some(&cells[at * 16]),
                "one" => Some(&cells[0]),
                _ => None,
            };
            let value = &value;
            all.spawn(move || match cell {
                Some(cell) => {
                    for _ in 0..times {
                        cell.fetch_add((1 << 32) + 1, Ordering::SeqCst);
                    }
                }
                None => {
                    for _ in 0..times {
                        std::hint::black_box(&mut *value.lock().unwrap());
                    }
                }
            });
        }
    });
}
