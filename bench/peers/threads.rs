//! The chain as threads over channels of the standard library: a counter, scales by three and a sink,
//! each a thread, over `sync_channel`s of capacity one. Nothing is recorded.
//!
//! Arguments: the number of scales, and how many tokens go through them.
use std::sync::mpsc::sync_channel;
use std::thread;

fn main() {
    let words: Vec<u64> = std::env::args().skip(1).map(|word| word.parse().unwrap()).collect();
    let (scales, tokens) = (words[0], words[1]);
    let mut threads = Vec::new();
    let (first, mut reader) = sync_channel::<u64>(1);
    threads.push(thread::spawn(move || {
        for word in 1..=tokens {
            first.send(word).unwrap();
        }
    }));
    for _ in 0..scales {
        let (writer, next) = sync_channel::<u64>(1);
        threads.push(thread::spawn(move || {
            for word in reader {
                writer.send(word.wrapping_mul(3)).unwrap();
            }
        }));
        reader = next;
    }
    let taken = reader.iter().count() as u64;
    for thread in threads {
        thread.join().unwrap();
    }
    assert_eq!(taken, tokens);
    println!("entries {}", tokens * (2 * scales + 2) + 2);
}
