//! Driven by tests/callers, by the words and lines of drive.c:
//!
//!     drive flow < TEXT
//!     drive check FILE..
//!     drive threads         two threads, each with a flow, one of which was opened elsewhere
use hoxburen::{End, Flow, Input, Output, Pause, Reason, Refused, check, run};
use std::error::Error;
use std::io::Read;

type Outcome = Result<(), Box<dyn Error>>;

/// So many entries are made at most, where a flow has no end.
const LONGEST: u64 = 1_000_000;

struct Driven {
    flow: Flow,
    inputs: Vec<String>,
    outputs: Vec<String>,
}

fn numbers<'a>(words: impl Iterator<Item = &'a str>) -> Vec<u64> {
    words.map(|it| it.parse().unwrap()).collect()
}

fn number_of(end: End) -> u32 {
    match end {
        End::Terminated => 64,
        End::Deadlock => 65,
        End::Ceiling => 66,
        End::Budget => 67,
        End::Memory => 68,
    }
}

fn number(pause: Pause) -> u32 {
    match pause {
        Pause::Cut => 0,
        Pause::Starved => 1,
        Pause::Blocked => 2,
        Pause::Over(end) => number_of(end),
    }
}

impl Driven {
    fn advance(&mut self, most: u64) -> Pause {
        let before = self.flow.entries().all;
        let pause = self.flow.advance(most);
        let made = self.flow.entries().all - before;
        assert!(made <= most && (pause != Pause::Cut || made + 1 >= most));
        match pause {
            Pause::Cut | Pause::Over(End::Ceiling | End::Memory) => {}
            _ => assert_eq!(self.flow.verdict(), pause),
        }
        if pause == Pause::Starved {
            assert!((0..self.inputs.len()).any(|it| self.flow.is_starved(Input(it))));
        }
        if pause == Pause::Blocked {
            assert!((0..self.outputs.len()).any(|it| self.flow.is_full(Output(it))));
        }
        pause
    }

    /// Drains at most so many words: one at a time, or into a buffer if they are many.
    fn drain(&mut self, output: Output, most: usize) -> Result<usize, Refused> {
        let held = self.flow.output_fill(output)?.held as usize;
        let words: Vec<u64> = if most < 8 {
            self.flow.words(output).take(most).collect()
        } else {
            let mut words = vec![0; most.min(1 << 16)];
            let count = self.flow.drain(output, &mut words)?;
            words.truncate(count);
            words
        };
        assert_eq!(words.len(), held.min(most));
        for word in &words {
            println!("{} {word}", self.outputs[output.0]);
        }
        Ok(words.len())
    }

    fn finish(&mut self) -> Outcome {
        for it in 0..self.inputs.len() {
            self.flow.end_input(Input(it))?;
        }
        while self.flow.entries().all < LONGEST {
            let pause = self.advance(5000);
            let mut count = 0;
            for it in 0..self.outputs.len() {
                count += self.drain(Output(it), 1 << 16)?;
            }
            if !matches!(pause, Pause::Cut | Pause::Blocked) && count == 0 {
                println!("over {}", number(pause));
                return Ok(());
            }
        }
        println!("over 0");
        Ok(())
    }

    fn obey(&mut self, line: &str) -> Outcome {
        let mut words = line.split(' ');
        let (verb, name) = (words.next().unwrap_or(""), words.next().unwrap_or(""));
        match verb {
            "feed" => {
                let (input, offered) = (self.flow.input(name)?, numbers(words));
                let (before, may) = (self.flow.input_fill(input)?, self.flow.may_feed(input));
                let fed = self.flow.feed(input, &offered)?;
                assert!(may || fed == 0);
                assert!(!may || fed as u64 == (before.capacity - before.held).min(offered.len() as u64));
                println!("fed {fed}");
            }
            "advance" => println!("pause {}", number(self.advance(name.parse()?))),
            "drain" => {
                let most = numbers(words)[0] as usize;
                self.drain(self.flow.output(name)?, most)?;
            }
            "end" => self.flow.end_input(self.flow.input(name)?)?,
            "finish" => self.finish()?,
            _ => return Err(format!("a line {line}").into()),
        }
        Ok(())
    }
}

fn drive() -> Outcome {
    let mut all = String::new();
    std::io::stdin().read_to_string(&mut all)?;
    let (text, rest) = all.split_at(all.find("\ninputs").unwrap() + 1);
    let mut lines = rest.lines();
    let mut names = || -> Vec<String> { lines.next().unwrap().split(' ').skip(1).map(str::to_string).collect() };
    let (inputs, outputs) = (names(), names());
    let [fed, drained] = [&inputs, &outputs].map(|names| names.iter().map(String::as_str).collect::<Vec<_>>());
    let flow = match Flow::open(text, &fed, &drained) {
        Ok(flow) => flow,
        Err(refused) => {
            println!("refused {} {refused}", refused.number());
            return Ok(());
        }
    };
    let mut driven = Driven { flow, inputs, outputs };
    for line in lines {
        driven.obey(line)?;
    }
    print!("{}", driven.flow.report()?);
    Ok(())
}

fn tell<T>(what: &str, answer: Result<T, Refused>) {
    match answer {
        Ok(_) => println!("{what} 0 "),
        Err(refused) => println!("{what} {} {refused}", refused.number()),
    }
}

fn check_files(paths: &[String]) -> Outcome {
    for path in paths {
        let text = std::fs::read_to_string(path)?;
        tell("check", check(&text));
        match run(&text) {
            Ok(run) => println!("run {} ", number_of(run.end)),
            refused => tell("run", refused),
        }
        tell("open", Flow::open(&text, &[], &[]));
    }
    Ok(())
}

const DOUBLER: &str = "
version = 1
process = [{ name = 'i', kind = 'input' }, { name = 'd', kind = 'scale', args = [2] }, { name = 'o', kind = 'drain' }]
channel = [{ name = 'x', from = 'i', to = 'd', capacity = 64 }, { name = 'y', from = 'd', to = 'o', capacity = 64 }]
";

/// Sends words through a flow, and returns the sum of what came out.
fn sum(mut flow: Flow, words: std::ops::Range<u64>) -> Result<u64, Refused> {
    let (x, y) = (flow.input("x")?, flow.output("y")?);
    let words: Vec<u64> = words.collect();
    let (mut rest, mut sum) = (&words[..], 0);
    while !rest.is_empty() {
        rest = &rest[flow.feed(x, rest)?..];
        flow.advance(u64::MAX);
        sum += flow.words(y).sum::<u64>();
    }
    Ok(sum)
}

fn threads() -> Outcome {
    let opened = Flow::open(DOUBLER, &["x"], &["y"])?;
    let moved = std::thread::spawn(move || sum(opened, 0..50_000));
    let own = std::thread::spawn(|| sum(Flow::open(DOUBLER, &["x"], &["y"])?, 50_000..100_000));
    let sums = [moved.join().unwrap()?, own.join().unwrap()?];
    assert_eq!(sums, [50_000 * 49_999, 100_000 * 99_999 - 50_000 * 49_999]);
    let mut refused = Flow::open(DOUBLER, &["x"], &["y"])?;
    assert_eq!(refused.feed(Input(7), &[1]).map_err(|it| it.reason()), Err(Reason::NoChannel));
    println!("two threads");
    Ok(())
}

fn main() -> Outcome {
    let words: Vec<String> = std::env::args().skip(1).collect();
    match words.first().map(String::as_str) {
        Some("flow") => drive(),
        Some("check") => check_files(&words[1..]),
        Some("threads") => threads(),
        _ => Err("flow, check or threads".into()),
    }
}
