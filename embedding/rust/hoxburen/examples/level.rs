//! A level meter, a part of which is a process of our own: the root. Reads a sample a line and writes the level of each:
//!     printf '%s\n' 30 -40 50 | cargo run --example level ../../level.toml
use hoxburen::Flow;
use std::error::Error;

fn main() -> Result<(), Box<dyn Error>> {
    let path = std::env::args().nth(1).ok_or("usage: level FILE")?;
    let mut flow = Flow::open(
        &std::fs::read_to_string(path)?,
        &["x", "root"],
        &["power", "level"],
    )?;
    let (x, root) = (flow.input("x")?, flow.input("root")?);
    let (power, level) = (flow.output("power")?, flow.output("level")?);
    for line in std::io::stdin().lines() {
        flow.feed_signed(x, &[line?.trim().parse()?])?;
        flow.advance(u64::MAX);
        // Our own process: a root for each word of power.
        let roots: Vec<u64> = flow.words(power).map(u64::isqrt).collect();
        let mut rest = &roots[..];
        while !rest.is_empty() {
            rest = &rest[flow.feed(root, rest)?..];
            flow.advance(u64::MAX);
            for word in flow.words(level) {
                println!("{word}");
            }
        }
    }
    Ok(())
}
