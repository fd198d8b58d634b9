//! The Parks machine as one writes it in Rust without proofs, for one thread and without a history: each body is
//! called where it lies, a process is ready or parked, and entries are counted alone. It runs a chain of a
//! counter, scales by three and a sink over channels of a capacity, and prints how many entries it made.
//!
//! Arguments: the number of scales, how many entries to make, the capacity, and whether bodies are `closures` on the
//! heap or `cards`, which one function matches.
use std::collections::VecDeque;

include!("../peers/answers.rs");

/// What a process does.
trait Body {
    fn answer(&self, local: &Local, last: Option<Token>) -> Answer;
}

type Closure = Box<dyn Fn(&Local, Option<Token>) -> Answer>;

impl Body for Closure {
    fn answer(&self, local: &Local, last: Option<Token>) -> Answer {
        self(local, last)
    }
}

enum Card {
    Count(u64, u64),
    Scale(u64),
    Sink(u64),
}

impl Body for Card {
    fn answer(&self, local: &Local, last: Option<Token>) -> Answer {
        match *self {
            Card::Count(from, number) => count_answer(from, number, local),
            Card::Scale(factor) => scale_answer(factor, local, last),
            Card::Sink(number) => sink_answer(number, local),
        }
    }
}

fn count_answer(from: u64, number: u64, local: &Local) -> Answer {
    if local[0] == number {
        return Answer { next: *local, act: Act::Stop };
    }
    let token = Token::Word(from + local[0]);
    Answer { next: [local[0] + 1, 0, 0, 0], act: Act::Write(0, token) }
}

fn scale_answer(factor: u64, local: &Local, last: Option<Token>) -> Answer {
    match (local[0], last) {
        (1, Some(Token::Word(word))) => {
            let token = Token::Word(word.wrapping_mul(factor));
            Answer { next: [0; 4], act: Act::Write(0, token) }
        }
        _ => Answer { next: [1, 0, 0, 0], act: Act::Read(0) },
    }
}

fn sink_answer(number: u64, local: &Local) -> Answer {
    if local[0] == number {
        return Answer { next: *local, act: Act::Stop };
    }
    Answer { next: [local[0] + 1, 0, 0, 0], act: Act::Read(0) }
}

#[derive(Debug, PartialEq)]
enum End {
    Terminated,
    Deadlock,
    Cut,
}

struct Channel {
    writer: usize,
    reader: usize,
    tokens: VecDeque<Token>,
    capacity: usize,
}

struct Process<B> {
    body: B,
    ins: [usize; 3],
    outs: [usize; 3],
    local: Local,
    last: Option<Token>,
    parked: Option<Act>,
}

struct Machine<B> {
    processes: Vec<Process<B>>,
    channels: Vec<Channel>,
    ready: VecDeque<usize>,
    stopped: usize,
    entries: u64,
    growths: u64,
}

impl<B: Body> Machine<B> {
    fn new(bodies: Vec<B>, ends: &[(usize, usize)], capacity: usize) -> Machine<B> {
        let process = |body| Process { body, ins: [0; 3], outs: [0; 3], local: [0; 4], last: None, parked: None };
        let mut processes: Vec<Process<B>> = bodies.into_iter().map(process).collect();
        let mut channels = Vec::new();
        for (channel, &(writer, reader)) in ends.iter().enumerate() {
            processes[writer].outs[0] = channel;
            processes[reader].ins[0] = channel;
            channels.push(Channel { writer, reader, tokens: VecDeque::with_capacity(capacity), capacity });
        }
        let ready = (0..processes.len()).collect();
        Machine { processes, channels, ready, stopped: 0, entries: 0, growths: 0 }
    }

    /// Does what a process wants, or parks it; then does what the process at the channel's other end waits for.
    fn act(&mut self, number: usize, act: Act) {
        let Some(other) = self.done(number, act) else { return };
        if let Some(wanted) = self.processes[other].parked.take() {
            self.done(other, wanted);
        }
    }

    /// Does what a process wants, if it can be done, and returns the process at the channel's other end.
    #[inline(always)]
    fn done(&mut self, number: usize, act: Act) -> Option<usize> {
        let process = &mut self.processes[number];
        let other = match act {
            Act::Read(port) => {
                let channel = process.ins[port as usize];
                let held = &mut self.channels[channel];
                let Some(token) = held.tokens.pop_front() else {
                    process.parked = Some(act);
                    return None;
                };
                process.last = Some(token);
                self.entries += 1;
                held.writer
            }
            Act::Write(port, token) => {
                let channel = process.outs[port as usize];
                let held = &mut self.channels[channel];
                if held.tokens.len() >= held.capacity {
                    process.parked = Some(act);
                    return None;
                }
                held.tokens.push_back(token);
                process.last = None;
                self.entries += 1;
                held.reader
            }
            Act::Stop => {
                self.entries += 1;
                self.stopped += 1;
                return None;
            }
        };
        self.ready.push_back(number);
        Some(other)
    }

    /// Where no process is ready: the end, or else the smallest full channel grows.
    #[cold]
    fn settle(&mut self) -> Option<End> {
        if self.stopped == self.processes.len() {
            return Some(End::Terminated);
        }
        let full = self.processes.iter().enumerate().filter_map(|(number, it)| match it.parked {
            Some(Act::Write(port, _)) => Some((self.channels[it.outs[port as usize]].capacity, it.outs[port as usize], number)),
            _ => None,
        });
        let Some((capacity, channel, number)) = full.min() else { return Some(End::Deadlock) };
        self.channels[channel].capacity = capacity + 1;
        self.entries += 1;
        self.growths += 1;
        let wanted = self.processes[number].parked.take().unwrap();
        self.act(number, wanted);
        None
    }

    fn run(&mut self, most: u64) -> End {
        while self.entries + 1 < most {
            let Some(number) = self.ready.pop_front() else {
                match self.settle() {
                    Some(end) => return end,
                    None => continue,
                }
            };
            let process = &mut self.processes[number];
            let answer = process.body.answer(&process.local, process.last);
            process.local = answer.next;
            self.act(number, answer.act);
        }
        End::Cut
    }
}

/// Runs a chain of these bodies.
fn chain<B: Body>(bodies: Vec<B>, entries: u64, capacity: usize) {
    let ends: Vec<(usize, usize)> = (0..bodies.len() - 1).map(|channel| (channel, channel + 1)).collect();
    let mut machine = Machine::new(bodies, &ends, capacity);
    assert_eq!(machine.run(entries), End::Cut);
    println!("entries {} growths {}", machine.entries, machine.growths);
}

fn closures(scales: usize, number: u64) -> Vec<Closure> {
    let mut bodies: Vec<Closure> = vec![Box::new(move |local, _| count_answer(1, number, local))];
    bodies.extend((0..scales).map(|_| Box::new(|local: &Local, last| scale_answer(3, local, last)) as Closure));
    bodies.push(Box::new(move |local, _| sink_answer(number, local)));
    bodies
}

fn cards(scales: usize, number: u64) -> Vec<Card> {
    let mut bodies = vec![Card::Count(1, number)];
    bodies.extend((0..scales).map(|_| Card::Scale(3)));
    bodies.push(Card::Sink(number));
    bodies
}

fn main() {
    let words: Vec<String> = std::env::args().skip(1).collect();
    let (scales, entries, capacity) = (words[0].parse().unwrap(), words[1].parse().unwrap(), words[2].parse().unwrap());
    match words[3].as_str() {
        "closures" => chain(closures(scales, u64::MAX >> 2), entries, capacity),
        "cards" => chain(cards(scales, u64::MAX >> 2), entries, capacity),
        other => panic!("no bodies {}", other),
    }
}
