//! As feed.c, with 256 words a call.
//!     feed FILE SAMPLES
use hoxburen::{Flow, Refused};

fn sample(place: u64) -> u64 {
    place * 7919 % 1000
}

/// Hashes what an output holds.
fn drain(flow: &mut Flow, output: hoxburen::Output, hash: &mut u64) -> Result<(), Refused> {
    let mut words = [0; 256];
    loop {
        let count = flow.drain(output, &mut words)?;
        for word in &words[..count] {
            *hash = hash.wrapping_mul(31).wrapping_add(*word);
        }
        if count < words.len() {
            return Ok(());
        }
    }
}

fn main() -> Result<(), Refused> {
    let words: Vec<String> = std::env::args().skip(1).collect();
    let (text, samples) = (std::fs::read_to_string(&words[0]).unwrap(), words[1].parse().unwrap());
    let mut flow = Flow::open(&text, &["x"], &["sum", "low"])?;
    let (x, sum, low) = (flow.input("x")?, flow.output("sum")?, flow.output("low")?);
    let (mut made, mut sums, mut lows) = (0, 0, 0);
    while made < samples {
        let batch: [u64; 256] = std::array::from_fn(|it| sample(made + it as u64));
        made += flow.feed(x, &batch[..(samples - made).min(256) as usize])? as u64;
        flow.advance(u64::MAX);
        drain(&mut flow, sum, &mut sums)?;
        drain(&mut flow, low, &mut lows)?;
    }
    let (mut due_of_sums, mut due_of_lows, mut old) = (0u64, 0u64, [0; 3]);
    for it in (0..samples).map(sample) {
        due_of_sums = due_of_sums.wrapping_mul(31).wrapping_add(it + old[0] + old[1] + old[2]);
        due_of_lows = due_of_lows.wrapping_mul(31).wrapping_add(it + 2 * old[0] + old[1]);
        old = [it, old[0], old[1]];
    }
    assert_eq!((sums, lows), (due_of_sums, due_of_lows));
    println!("{samples} samples, both sums of each, {} entries", flow.entries().all);
    Ok(())
}
