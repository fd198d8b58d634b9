//! Checks and runs Kahn process networks, and feeds and drains networks that may run forever.
//!
//! A description is a TOML text that lists processes, each with its kind, and the channels between them
//! (docs/format.md and docs/signals.md of Hoxburen). A [`Flow`] runs its network: you feed words into its
//! inputs and drain them from its outputs. The output depends only on what you feed, never on when, or in
//! what pieces.
//!
//! ```
//! use hoxburen::Flow;
//!
//! # fn main() -> Result<(), hoxburen::Refused> {
//! let text = "
//! version = 1
//! process = [
//!     { name = 'samples', kind = 'input' },
//!     { name = 'smooth', kind = 'low_pass', args = [1] },
//!     { name = 'smoothed', kind = 'drain' },
//! ]
//! channel = [
//!     { name = 'x', from = 'samples', to = 'smooth', capacity = 256 },
//!     { name = 'y', from = 'smooth', to = 'smoothed', capacity = 256 },
//! ]
//! ";
//! let mut flow = Flow::open(text, &["x"], &["y"])?;
//! let (x, y) = (flow.input("x")?, flow.output("y")?);
//! flow.feed(x, &[100, 100, 100, 100])?;
//! flow.advance(u64::MAX);
//! assert_eq!(flow.words(y).collect::<Vec<_>>(), [50, 75, 87, 93]);
//! # Ok(())
//! # }
//! ```
//!
//! An input is a channel whose writer stops at once (kinds `input`, `input_flags` and `count 0 0`); an output
//! is one whose reader only reads it (`drain`, `drain_flags` and `sink`). Words have 64 bits;
//! [`Flow::feed_signed`] and [`Flow::drain_signed`] read them in two's complement. On a channel of flags, 0
//! is false and 1 is true.
//!
//! [`Flow::feed`] takes only the words that fit into the input, and the network waits if an output is full.
//! So the capacities of the channels bound the memory, however many words pass:
//!
//! ```
//! # use hoxburen::Flow;
//! # fn main() -> Result<(), hoxburen::Refused> {
//! # let text = "
//! # version = 1
//! # process = [{ name = 'i', kind = 'input' }, { name = 'o', kind = 'drain' }, { name = 'a', kind = 'scale', args = [2] }]
//! # channel = [{ name = 'x', from = 'i', to = 'a' }, { name = 'y', from = 'a', to = 'o' }]
//! # ";
//! # let samples: Vec<u64> = (0..1000).collect();
//! # let mut flow = Flow::open(text, &["x"], &["y"])?;
//! # let (x, y) = (flow.input("x")?, flow.output("y")?);
//! # let mut count = 0;
//! let mut rest = &samples[..];
//! while !rest.is_empty() {
//!     rest = &rest[flow.feed(x, rest)?..];
//!     flow.advance(u64::MAX);
//!     for word in flow.words(y) {
//! #       assert_eq!(word, 2 * count);
//! #       count += 1;
//!         // ..
//! #       let _ = word;
//!     }
//! }
//! # assert_eq!(count, 1000);
//! # Ok(())
//! # }
//! ```
//!
//! The engine is a static library with a C interface, `libhoxburen.a`. The environment variable
//! `HOXBUREN_LIB` names its folder; without it, the build takes the library from the repository of this
//! crate.
#![no_std]
#![warn(missing_docs)]

extern crate alloc;

mod answers;
mod sys;

pub use answers::{End, Pause, Reason, Refused};

use alloc::string::String;
use alloc::vec;
use alloc::vec::Vec;
use core::cell::UnsafeCell;
use core::ffi::c_char;
use core::fmt;
use core::iter::FusedIterator;

/// A network that is fed, run and drained.
///
/// It may move to another thread ([`Send`]), but takes calls from one at a time: it is not [`Sync`].
///
/// ```
/// fn sends<T: Send>() {}
/// sends::<hoxburen::Flow>();
/// ```
///
/// ```compile_fail,E0277
/// fn is_shared<T: Sync>() {}
/// is_shared::<hoxburen::Flow>();
/// ```
pub struct Flow {
    // Open from `Flow::open` until dropped. The library takes a mutable pointer, even in calls that only
    // look.
    raw: UnsafeCell<sys::Flow>,
}

// SAFETY: a flow may move to another thread if its calls are ordered (DUTIES of hoxburen.h, 5); its only
// owner orders them.
unsafe impl Send for Flow {}

/// An input of a flow: its place among the names given to [`Flow::open`].
#[derive(Clone, Copy, Debug, PartialEq, Eq, Hash, PartialOrd, Ord)]
pub struct Input(pub usize);

/// An output of a flow: its place among the names given to [`Flow::open`].
#[derive(Clone, Copy, Debug, PartialEq, Eq, Hash, PartialOrd, Ord)]
pub struct Output(pub usize);

/// How full a channel is.
#[derive(Clone, Copy, Debug, PartialEq, Eq)]
pub struct Fill {
    /// The number of words in it.
    pub held: u64,
    /// Its current capacity. A channel grows if nothing else lets the network continue.
    pub capacity: u64,
}

/// The number of entries of a flow. An entry is a word read or written, a process's stop or a channel's
/// growth.
#[derive(Clone, Copy, Debug, PartialEq, Eq)]
pub struct Entries {
    /// All entries.
    pub all: u64,
    /// The growths among them.
    pub growths: u64,
}

/// A run of a network from start to end.
#[derive(Clone, Debug, PartialEq, Eq)]
pub struct Run {
    /// How it ended.
    pub end: End,
    /// The report of docs/format.md.
    pub report: String,
}

impl Flow {
    /// Opens a flow at the start of the network of a description. `inputs` names the channels to feed,
    /// `outputs` those to drain.
    ///
    /// # Errors
    ///
    /// If the description has a fault, or a channel can't be fed or drained or is named twice. The message
    /// says what is wrong, and where.
    ///
    /// ```
    /// use hoxburen::{Flow, Reason};
    ///
    /// let refused = Flow::open("version = 3\nprocess = []\n", &[], &[]).unwrap_err();
    /// assert_eq!(refused.reason(), Reason::Version);
    /// assert!(refused.to_string().contains('3'));
    /// ```
    pub fn open(text: &str, inputs: &[&str], outputs: &[&str]) -> Result<Flow, Refused> {
        let inputs = joined(inputs, Reason::NoInput)?;
        let outputs = joined(outputs, Reason::NoOutput)?;
        let mut raw = sys::Flow::CLOSED;
        // SAFETY: the flow is closed until the call that opens it, and each pointer leads to as many bytes as
        // the length beside it says.
        let (number, message) = told(|room, room_length, length| unsafe {
            sys::hox_open(
                &mut raw,
                chars(text),
                text.len(),
                chars(&inputs),
                inputs.len(),
                chars(&outputs),
                outputs.len(),
                room,
                room_length,
                length,
            )
        });
        answer(number, 0, message)?;
        Ok(Flow {
            raw: UnsafeCell::new(raw),
        })
    }

    /// Returns the input with this name.
    ///
    /// # Errors
    ///
    /// [`Reason::NoChannel`] if there is none.
    pub fn input(&self, name: &str) -> Result<Input, Refused> {
        let mut place = 0;
        // SAFETY: as in `look`; the name is as long as its length says.
        let number = unsafe { sys::hox_input(self.raw.get(), chars(name), name.len(), &mut place) };
        answer(number, 0, String::new())?;
        Ok(Input(place))
    }

    /// Returns the output with this name.
    ///
    /// # Errors
    ///
    /// [`Reason::NoChannel`] if there is none.
    pub fn output(&self, name: &str) -> Result<Output, Refused> {
        let mut place = 0;
        // SAFETY: as in `input`.
        let number =
            unsafe { sys::hox_output(self.raw.get(), chars(name), name.len(), &mut place) };
        answer(number, 0, String::new())?;
        Ok(Output(place))
    }

    /// Feeds words into an input, in order, as many as fit, and returns how many.
    ///
    /// # Errors
    ///
    /// [`Reason::NoChannel`]; [`Reason::Ended`] after [`Flow::end_input`]; [`Reason::NoFlag`] if a word for a
    /// channel of flags is neither 0 nor 1, after the input took the [`Refused::taken`] words before it.
    pub fn feed(&mut self, input: Input, words: &[u64]) -> Result<usize, Refused> {
        let mut fed = 0;
        // SAFETY: as in `look`; the slice is as long as its length says.
        let number = unsafe {
            sys::hox_feed(
                self.raw.get(),
                input.0,
                words.as_ptr(),
                words.len(),
                &mut fed,
            )
        };
        answer(number, fed, String::new())?;
        Ok(fed)
    }

    /// Feeds signed words with [`Flow::feed`].
    ///
    /// # Errors
    ///
    /// Those of `feed`.
    pub fn feed_signed(&mut self, input: Input, words: &[i64]) -> Result<usize, Refused> {
        // SAFETY: u64 has the size, the alignment and the values of i64.
        self.feed(input, unsafe {
            core::slice::from_raw_parts(words.as_ptr().cast(), words.len())
        })
    }

    /// Runs the flow for at most `most` entries, and returns why it stopped. If the network runs forever,
    /// give a limit.
    pub fn advance(&mut self, most: u64) -> Pause {
        Pause::of(self.look(|flow, pause| unsafe { sys::hox_advance(flow, most, pause) }))
    }

    /// Moves the first words of an output to the front of a buffer, returns how many, and leaves the rest of
    /// the buffer. If the buffer is not filled, the output is now empty.
    ///
    /// # Errors
    ///
    /// [`Reason::NoChannel`].
    pub fn drain(&mut self, output: Output, words: &mut [u64]) -> Result<usize, Refused> {
        let mut drained = 0;
        // SAFETY: as in `look`; the slice is as long as its length says.
        let number = unsafe {
            sys::hox_drain(
                self.raw.get(),
                output.0,
                words.as_mut_ptr(),
                words.len(),
                &mut drained,
            )
        };
        answer(number, 0, String::new())?;
        Ok(drained)
    }

    /// Drains signed words with [`Flow::drain`].
    ///
    /// # Errors
    ///
    /// Those of `drain`.
    pub fn drain_signed(&mut self, output: Output, words: &mut [i64]) -> Result<usize, Refused> {
        // SAFETY: as in `feed_signed`.
        self.drain(output, unsafe {
            core::slice::from_raw_parts_mut(words.as_mut_ptr().cast(), words.len())
        })
    }

    /// Returns an iterator that takes the words out of an output, without running the network. It is empty if
    /// there is no such output.
    pub fn words(&mut self, output: Output) -> Words<'_> {
        Words { flow: self, output }
    }

    /// Ends an input: it takes no more words. Does nothing if it has ended.
    ///
    /// # Errors
    ///
    /// [`Reason::NoChannel`].
    pub fn end_input(&mut self, input: Input) -> Result<(), Refused> {
        // SAFETY: as in `look`.
        answer(
            unsafe { sys::hox_end_input(self.raw.get(), input.0) },
            0,
            String::new(),
        )
    }

    /// Returns whether an input has room and has not ended; `false` if there is no such input.
    pub fn may_feed(&self, input: Input) -> bool {
        self.look(|flow, may| unsafe { sys::hox_may_feed(flow, input.0, may) }) == 1
    }

    /// Returns whether an input is empty and a process waits for a word of it; `false` if there is no such
    /// input.
    pub fn is_starved(&self, input: Input) -> bool {
        self.look(|flow, waits| unsafe { sys::hox_waits_for_input(flow, input.0, waits) }) == 1
    }

    /// Returns whether an output is full and a process waits for room in it; `false` if there is no such
    /// output.
    pub fn is_full(&self, output: Output) -> bool {
        self.look(|flow, waits| unsafe { sys::hox_waits_for_output(flow, output.0, waits) }) == 1
    }

    /// Returns how full an input is.
    ///
    /// # Errors
    ///
    /// [`Reason::NoChannel`].
    pub fn input_fill(&self, input: Input) -> Result<Fill, Refused> {
        let (mut held, mut capacity) = (0, 0);
        // SAFETY: as in `look`.
        answer(
            unsafe { sys::hox_input_fill(self.raw.get(), input.0, &mut held, &mut capacity) },
            0,
            String::new(),
        )?;
        Ok(Fill { held, capacity })
    }

    /// Returns how full an output is.
    ///
    /// # Errors
    ///
    /// [`Reason::NoChannel`].
    pub fn output_fill(&self, output: Output) -> Result<Fill, Refused> {
        let (mut held, mut capacity) = (0, 0);
        // SAFETY: as in `look`.
        answer(
            unsafe { sys::hox_output_fill(self.raw.get(), output.0, &mut held, &mut capacity) },
            0,
            String::new(),
        )?;
        Ok(Fill { held, capacity })
    }

    /// Returns the number of entries since the flow was opened. Each count stops at [`u64::MAX`].
    pub fn entries(&self) -> Entries {
        let (mut all, mut growths) = (0, 0);
        // SAFETY: as in `look`.
        unsafe { sys::hox_entries(self.raw.get(), &mut all, &mut growths) };
        Entries { all, growths }
    }

    /// Returns how the flow stands, without running it. [`Pause::Cut`] may mean that only [`Flow::advance`]
    /// finds what follows.
    pub fn verdict(&self) -> Pause {
        Pause::of(self.look(|flow, verdict| unsafe { sys::hox_verdict(flow, verdict) }))
    }

    /// Returns how the flow, each process and each channel stands, in lines.
    ///
    /// # Errors
    ///
    /// [`Reason::Memory`] if out of memory for the text.
    pub fn report(&self) -> Result<String, Refused> {
        // SAFETY: as in `look`; `told` passes a buffer with its length.
        let (number, report) = told(|room, room_length, length| unsafe {
            sys::hox_report(self.raw.get(), room, room_length, length)
        });
        answer(number, 0, String::new())?;
        Ok(report)
    }

    /// Returns the number that a call writes; 0 if the call fails.
    //
    // SAFETY of the calls in this file: the flow is open, only the library wrote it, and it is this caller's
    // alone, since `Flow` is not `Sync`; a call writes only into a local of its own.
    fn look(&self, call: impl FnOnce(*mut sys::Flow, *mut u32) -> u32) -> u32 {
        let mut told = 0;
        call(self.raw.get(), &mut told);
        told
    }
}

impl Drop for Flow {
    fn drop(&mut self) {
        // SAFETY: as in `look`; no call comes after this one.
        unsafe { sys::hox_close(self.raw.get()) };
    }
}

impl fmt::Debug for Flow {
    fn fmt(&self, to: &mut fmt::Formatter<'_>) -> fmt::Result {
        to.debug_struct("Flow")
            .field("verdict", &self.verdict())
            .field("entries", &self.entries())
            .finish_non_exhaustive()
    }
}

/// The words of an output, from [`Flow::words`].
#[derive(Debug)]
pub struct Words<'a> {
    flow: &'a mut Flow,
    output: Output,
}

impl Iterator for Words<'_> {
    type Item = u64;

    fn next(&mut self) -> Option<u64> {
        let mut word = [0];
        (self.flow.drain(self.output, &mut word) == Ok(1)).then_some(word[0])
    }
}

impl FusedIterator for Words<'_> {}

/// Checks a description.
///
/// # Errors
///
/// If the description has a fault. The message says what is wrong, and where.
///
/// ```
/// let refused = hoxburen::check("version = 1\nproces = []\n").unwrap_err();
/// assert_eq!(refused.reason(), hoxburen::Reason::Keys);
/// ```
pub fn check(text: &str) -> Result<(), Refused> {
    // SAFETY: the text is as long as its length says, and `told` passes a buffer with its length.
    let (number, message) = told(|room, room_length, length| unsafe {
        sys::hox_check(chars(text), text.len(), room, room_length, length)
    });
    answer(number, 0, message)
}

/// Runs the network of a description from start to end, in this thread, within its budget.
///
/// # Errors
///
/// Those of [`check`].
///
/// ```
/// use hoxburen::{End, run};
///
/// # fn main() -> Result<(), hoxburen::Refused> {
/// let counter = "
/// version = 1
/// process = [{ name = 'src', kind = 'count', args = [1, 3] }, { name = 'snk', kind = 'sink', args = [3] }]
/// channel = [{ name = 'c0', from = 'src', to = 'snk' }]
/// ";
/// let run = run(counter)?;
/// assert_eq!(run.end, End::Terminated);
/// assert!(run.report.contains("channel c0 put 3 left 0 capacity 1\n"));
/// # Ok(())
/// # }
/// ```
pub fn run(text: &str) -> Result<Run, Refused> {
    // SAFETY: as in `check`.
    let (number, report) = told(|room, room_length, length| unsafe {
        sys::hox_run(chars(text), text.len(), room, room_length, length)
    });
    match End::of(number) {
        Some(end) => Ok(Run { end, report }),
        None => Err(Refused::new(number, 0, report)),
    }
}

/// Returns the version of the library: 10000 * major + 100 * minor + patch.
pub fn version() -> u32 {
    // SAFETY: it takes nothing.
    unsafe { sys::hox_version() }
}

fn chars(text: &str) -> *const c_char {
    text.as_ptr().cast()
}

fn answer(number: u32, taken: usize, message: String) -> Result<(), Refused> {
    if number == sys::HOX_DONE {
        Ok(())
    } else {
        Err(Refused::new(number, taken, message))
    }
}

/// Joins names with spaces, if each is a valid name.
fn joined(names: &[&str], reason: Reason) -> Result<String, Refused> {
    let is_name = |name: &str| {
        !name.is_empty()
            && name
                .bytes()
                .all(|it| it.is_ascii_alphanumeric() || it == b'_')
    };
    match names.iter().find(|it| !is_name(it)) {
        None => Ok(names.join(" ")),
        Some(name) => Err(Refused::new(
            reason as u32,
            0,
            alloc::format!("no channel has the name {name:?}"),
        )),
    }
}

/// Returns the answer of a call and the text that it writes. Calls again with a longer buffer if the text did
/// not fit.
fn told(mut call: impl FnMut(*mut c_char, usize, *mut usize) -> u32) -> (u32, String) {
    let mut text: Vec<u8> = vec![0; 1024];
    loop {
        let mut length = 0;
        let number = call(text.as_mut_ptr().cast(), text.len(), &mut length);
        if length <= text.len() {
            return (
                number,
                String::from_utf8_lossy(&text[..length]).into_owned(),
            );
        }
        text.resize(length, 0);
    }
}
