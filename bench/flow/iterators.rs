//! The chain as a pipeline of iterators: a counter, scales by three, and a sum that takes all. There are neither
//! channels nor processes that wait; a step is a call of the next iterator. This is the limit for a chain.
//!
//! Arguments: the number of scales, and how many entries a machine would make.
fn main() {
    let words: Vec<u64> = std::env::args().skip(1).map(|word| word.parse().unwrap()).collect();
    let (scales, entries) = (words[0], words[1]);
    let tokens = entries / (2 * scales + 2);
    let mut stream: Box<dyn Iterator<Item = u64>> = Box::new(1..=tokens);
    for _ in 0..scales {
        stream = Box::new(stream.map(|word| word.wrapping_mul(3)));
    }
    let mut sum = 0u64;
    for word in stream.by_ref() {
        sum = sum.wrapping_add(word);
    }
    println!("entries {} sum {sum}", tokens * (2 * scales + 2));
}
