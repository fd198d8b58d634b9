//! The Parks machine in plain Rust, without proofs: the same design as kpn's, with boxed closures,
//! rings, a queue of the ready processes and a recorded history. It runs a chain of a counter, scales
//! by three and a sink over channels of capacity one, and prints how many entries the history has.
//!
//! Arguments: the number of scales, and how many tokens go through them.
use std::collections::VecDeque;

include!("answers.rs");

type Body = Box<dyn Fn(Local, Option<Token>) -> Answer>;

#[allow(dead_code)]
#[derive(Clone, Copy)]
enum Deed {
    Took { channel: usize, token: Token },
    Put { channel: usize, token: Token },
    Stopped,
}

#[allow(dead_code)]
#[derive(Clone, Copy)]
enum Entry {
    Did { process: usize, deed: Deed },
    Grew { channel: usize, to: usize },
}

#[derive(Clone, Copy)]
enum Standing {
    Ready,
    Out,
    Parked(Answer),
    Stopped,
}

#[derive(Clone, Copy)]
enum Status {
    Live { local: Local, last: Option<Token> },
    Done,
}

#[derive(Debug, PartialEq)]
enum End {
    Terminated,
    Deadlock,
    Budget,
}

struct Channel {
    writer: usize,
    reader: usize,
    tokens: VecDeque<Token>,
    capacity: usize,
}

#[derive(Clone, Copy, Default)]
struct Ports {
    ins: [Option<usize>; 3],
    outs: [Option<usize>; 3],
}

struct Machine {
    ports: Vec<Ports>,
    channels: Vec<Channel>,
    bodies: Vec<Option<Body>>,
    statuses: Vec<Status>,
    standings: Vec<Standing>,
    queue: VecDeque<usize>,
    out: usize,
    stopped: usize,
    history: Vec<Entry>,
    budget: usize,
    end: Option<End>,
}

struct Task {
    process: usize,
    body: Body,
    local: Local,
    last: Option<Token>,
}

impl Machine {
    fn new(bodies: Vec<Body>, ends: &[(usize, usize)], budget: usize) -> Machine {
        let count = bodies.len();
        let mut ports = vec![Ports::default(); count];
        let mut channels = Vec::new();
        for (channel, &(writer, reader)) in ends.iter().enumerate() {
            ports[writer].outs[0] = Some(channel);
            ports[reader].ins[0] = Some(channel);
            let tokens = VecDeque::with_capacity(1);
            channels.push(Channel { writer, reader, tokens, capacity: 1 });
        }
        Machine {
            ports,
            channels,
            bodies: bodies.into_iter().map(Some).collect(),
            statuses: vec![Status::Live { local: [0; 4], last: None }; count],
            standings: vec![Standing::Ready; count],
            queue: (0..count).collect(),
            out: 0,
            stopped: 0,
            history: Vec::with_capacity(budget + 2),
            budget,
            end: None,
        }
    }

    fn take(&mut self) -> Option<Task> {
        if self.end.is_some() {
            return None;
        }
        let process = self.queue.pop_front()?;
        self.standings[process] = Standing::Out;
        self.out += 1;
        let Status::Live { local, last } = self.statuses[process] else { unreachable!() };
        let body = self.bodies[process].take().unwrap();
        Some(Task { process, body, local, last })
    }

    fn did(&mut self, process: usize, deed: Deed, status: Status) -> Option<Deed> {
        self.statuses[process] = status;
        self.history.push(Entry::Did { process, deed });
        match self.standings[process] {
            Standing::Out => self.out -= 1,
            _ => {}
        }
        if let Deed::Stopped = deed {
            self.standings[process] = Standing::Stopped;
            self.stopped += 1;
        } else {
            self.standings[process] = Standing::Ready;
            self.queue.push_back(process);
        }
        Some(deed)
    }

    fn advance(&mut self, process: usize, answer: Answer) -> Option<Deed> {
        match answer.act {
            Act::Read(port) => {
                let channel = self.ports[process].ins[port as usize].unwrap();
                let token = self.channels[channel].tokens.pop_front()?;
                let status = Status::Live { local: answer.next, last: Some(token) };
                self.did(process, Deed::Took { channel, token }, status)
            }
            Act::Write(port, token) => {
                let channel = self.ports[process].outs[port as usize].unwrap();
                let held = &mut self.channels[channel];
                if held.tokens.len() >= held.capacity {
                    return None;
                }
                held.tokens.push_back(token);
                let status = Status::Live { local: answer.next, last: None };
                self.did(process, Deed::Put { channel, token }, status)
            }
            Act::Stop => self.did(process, Deed::Stopped, Status::Done),
        }
    }

    fn awaited(&self, process: usize) -> Option<(usize, Answer)> {
        match self.standings[process] {
            Standing::Parked(answer) => match answer.act {
                Act::Write(port, _) => Some((self.ports[process].outs[port as usize]?, answer)),
                _ => None,
            },
            _ => None,
        }
    }

    #[cold]
    fn settle(&mut self) {
        if self.stopped == self.standings.len() {
            self.end = Some(End::Terminated);
            return;
        }
        let candidates = (0..self.standings.len())
            .filter_map(|process| self.awaited(process).map(|(channel, answer)| (self.channels[channel].capacity, channel, process, answer)));
        let Some((capacity, channel, process, answer)) = candidates.min_by_key(|it| (it.0, it.1)) else {
            self.end = Some(End::Deadlock);
            return;
        };
        self.channels[channel].capacity = capacity + 1;
        self.history.push(Entry::Grew { channel, to: capacity + 1 });
        self.advance(process, answer);
    }

    fn commit(&mut self, process: usize, body: Body, answer: Answer) {
        self.bodies[process] = Some(body);
        match self.advance(process, answer) {
            None => {
                self.standings[process] = Standing::Parked(answer);
                self.out -= 1;
            }
            Some(deed) => {
                let other = match deed {
                    Deed::Took { channel, .. } => Some(self.channels[channel].writer),
                    Deed::Put { channel, .. } => Some(self.channels[channel].reader),
                    Deed::Stopped => None,
                };
                if let Some(other) = other {
                    if let Standing::Parked(wanted) = self.standings[other] {
                        self.advance(other, wanted);
                    }
                }
            }
        }
        if self.queue.len() + self.out == 0 {
            self.settle();
        }
        if self.end.is_none() && self.history.len() >= self.budget {
            self.end = Some(End::Budget);
        }
    }

    fn finish_alone(&mut self) {
        while let Some(Task { process, body, local, last }) = self.take() {
            let answer = body(local, last);
            self.commit(process, body, answer);
        }
    }
}

fn count(from: u64, number: u64) -> Body {
    Box::new(move |local, _| {
        if local[0] == number {
            return Answer { next: local, act: Act::Stop };
        }
        let token = Token::Word(from + local[0]);
        Answer { next: [local[0] + 1, 0, 0, 0], act: Act::Write(0, token) }
    })
}

fn scale(factor: u64) -> Body {
    Box::new(move |local, last| match (local[0], last) {
        (1, Some(Token::Word(word))) => {
            let token = Token::Word(word.wrapping_mul(factor));
            Answer { next: [0; 4], act: Act::Write(0, token) }
        }
        _ => Answer { next: [1, 0, 0, 0], act: Act::Read(0) },
    })
}

fn sink(number: u64) -> Body {
    Box::new(move |local, _| {
        if local[0] == number {
            return Answer { next: local, act: Act::Stop };
        }
        Answer { next: [local[0] + 1, 0, 0, 0], act: Act::Read(0) }
    })
}

fn main() {
    let words: Vec<u64> = std::env::args().skip(1).map(|word| word.parse().unwrap()).collect();
    let (scales, tokens) = (words[0] as usize, words[1]);
    let mut bodies = vec![count(1, tokens)];
    bodies.extend((0..scales).map(|_| scale(3)));
    bodies.push(sink(tokens));
    let ends: Vec<(usize, usize)> = (0..=scales).map(|channel| (channel, channel + 1)).collect();
    let mut machine = Machine::new(bodies, &ends, 1_000_000);
    machine.finish_alone();
    // One pass over the history, as for a report in counts.
    let mut steps = vec![0u64; scales + 2];
    let mut puts = vec![0u64; scales + 1];
    for entry in &machine.history {
        if let Entry::Did { process, deed } = *entry {
            steps[process] += 1;
            if let Deed::Put { channel, .. } = deed {
                puts[channel] += 1;
            }
        }
    }
    assert_ne!(machine.end, Some(End::Budget));
    assert!(puts.iter().all(|put| *put == tokens));
    println!("entries {}", steps.iter().sum::<u64>());
}
