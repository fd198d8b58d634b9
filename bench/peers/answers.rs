// What the machines written in plain Rust have in common: tokens, and what a process answers.

#[derive(Clone, Copy)]
enum Token {
    Word(u64),
    #[allow(dead_code)]
    Flag(bool),
}

#[derive(Clone, Copy)]
enum Act {
    Read(u8),
    Write(u8, Token),
    Stop,
}

type Local = [u64; 4];

#[derive(Clone, Copy)]
struct Answer {
    next: Local,
    act: Act,
}
