//! The same hand-overs by std's Mutex, for comparison.
use std::sync::Mutex;
use std::thread::scope;
use std::time::Instant;

const HOLDS: u32 = 4_000_000;

fn main() {
    for workers in [1, 2, 4] {
        let value = Mutex::new(0u64);
        let start = Instant::now();
        scope(|threads| {
            for _ in 0..workers {
                threads.spawn(|| {
                    for _ in 0..HOLDS / workers {
                        let mut held = value.lock().unwrap();
                        *held = std::hint::black_box(*held);
                    }
                });
            }
        });
        println!("{workers} {}", start.elapsed().as_micros());
    }
}
