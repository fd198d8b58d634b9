//! Reads a number a line, and writes the moving sum and the low-pass of each:
//!     seq 1 10 | cargo run --example sums ../../sums.toml
use hoxburen::Flow;
use std::error::Error;

fn main() -> Result<(), Box<dyn Error>> {
    let path = std::env::args().nth(1).ok_or("usage: sums FILE")?;
    let mut flow = Flow::open(&std::fs::read_to_string(path)?, &["x"], &["sum", "low"])?;
    let (x, sum, low) = (flow.input("x")?, flow.output("sum")?, flow.output("low")?);
    for line in std::io::stdin().lines() {
        flow.feed_signed(x, &[line?.trim().parse()?])?;
        flow.advance(u64::MAX); // until it waits for more of x
        let (mut sums, mut lows) = ([0], [0]);
        while flow.drain_signed(sum, &mut sums)? == 1 && flow.drain_signed(low, &mut lows)? == 1 {
            println!("{} {}", sums[0], lows[0]);
        }
    }
    Ok(())
}
