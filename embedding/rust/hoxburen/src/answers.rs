//! Answers of the library.
use alloc::string::String;
use core::error::Error;
use core::fmt;

/// How a flow stands; why [`Flow::advance`](crate::Flow::advance) stopped.
#[derive(Clone, Copy, Debug, PartialEq, Eq, Hash)]
pub enum Pause {
    /// It may continue; fewer than two of the allowed entries were left.
    Cut,
    /// No process can continue, and one waits for a word of an empty input: feed or end it.
    Starved,
    /// Otherwise, no process can continue, and one waits for room in a full output: drain it.
    Blocked,
    /// It is over, like a run: neither feeding nor draining helps. After [`End::Memory`], the next advance
    /// tries again.
    Over(End),
}

impl Pause {
    pub(crate) fn of(number: u32) -> Pause {
        match number {
            1 => Pause::Starved,
            2 => Pause::Blocked,
            _ => End::of(number).map_or(Pause::Cut, Pause::Over),
        }
    }
}

impl fmt::Display for Pause {
    fn fmt(&self, to: &mut fmt::Formatter<'_>) -> fmt::Result {
        match self {
            Pause::Cut => to.write_str("it can go on"),
            Pause::Starved => to.write_str("it waits for a word of an input"),
            Pause::Blocked => to.write_str("it waits for room in an output"),
            Pause::Over(end) => end.fmt(to),
        }
    }
}

/// How a run ended.
#[derive(Clone, Copy, Debug, PartialEq, Eq, Hash)]
pub enum End {
    /// Each process has stopped.
    Terminated,
    /// No process can continue, and some wait for tokens that never come.
    Deadlock,
    /// A channel at its greatest capacity would have to grow.
    Ceiling,
    /// The budget of the description is spent (only [`run`](crate::run)).
    Budget,
    /// Out of memory for a channel's growth.
    Memory,
}

impl End {
    pub(crate) fn of(number: u32) -> Option<End> {
        Some(match number {
            64 => End::Terminated,
            65 => End::Deadlock,
            66 => End::Ceiling,
            67 => End::Budget,
            68 => End::Memory,
            _ => return None,
        })
    }
}

impl fmt::Display for End {
    fn fmt(&self, to: &mut fmt::Formatter<'_>) -> fmt::Result {
        to.write_str(match self {
            End::Terminated => "each process has stopped",
            End::Deadlock => "no process goes on, and some wait for tokens that never come",
            End::Ceiling => "a channel at its greatest capacity would have to grow",
            End::Budget => "the budget is spent",
            End::Memory => "a channel's growth was refused memory",
        })
    }
}

/// A call failed. Nothing changed, except that an input took [`Refused::taken`] words.
#[derive(Clone, PartialEq, Eq)]
pub struct Refused {
    reason: Reason,
    taken: usize,
    message: String,
}

impl Refused {
    pub(crate) fn new(number: u32, taken: usize, message: String) -> Refused {
        Refused {
            reason: Reason::of(number),
            taken,
            message,
        }
    }

    /// Returns why.
    pub fn reason(&self) -> Reason {
        self.reason
    }

    /// Returns the number of the reason, as in hoxburen.h; up to 17 also as in the faults of docs/format.md.
    pub fn number(&self) -> u32 {
        self.reason as u32
    }

    /// Returns the number of words that an input took before the one that is no flag.
    pub fn taken(&self) -> usize {
        self.taken
    }
}

impl fmt::Display for Refused {
    fn fmt(&self, to: &mut fmt::Formatter<'_>) -> fmt::Result {
        if self.message.is_empty() {
            self.reason.fmt(to)
        } else {
            to.write_str(&self.message)
        }
    }
}

impl fmt::Debug for Refused {
    fn fmt(&self, to: &mut fmt::Formatter<'_>) -> fmt::Result {
        write!(to, "Refused({:?}: {self})", self.reason)
    }
}

impl Error for Refused {}

macro_rules! reasons {
    ($($(#[doc = $doc:literal])* $name:ident = $number:literal, $text:literal;)*) => {
        /// Why a call failed. Numbers up to 17 are the faults of a description (docs/format.md).
        #[derive(Clone, Copy, Debug, PartialEq, Eq, Hash)]
        #[non_exhaustive]
        #[repr(u32)]
        pub enum Reason {
            $(#[doc = $text] $name = $number,)*
            /// A number that this crate does not know.
            Other = u32::MAX,
        }

        impl Reason {
            pub(crate) fn of(number: u32) -> Reason {
                match number {
                    $($number => Reason::$name,)*
                    _ => Reason::Other,
                }
            }
        }

        impl fmt::Display for Reason {
            fn fmt(&self, to: &mut fmt::Formatter<'_>) -> fmt::Result {
                to.write_str(match self {
                    $(Reason::$name => $text,)*
                    Reason::Other => "the library is of another version",
                })
            }
        }
    };
}

reasons! {
    Toml = 1, "the description is not UTF-8 or not TOML";
    Keys = 2, "a key is missing or unknown, or its value has the wrong type";
    Version = 3, "the version is not 1 or 2";
    Counts = 4, "there is no process, or there are more than 64 processes or 256 channels";
    Name = 5, "a name is malformed, or two processes or two channels share one";
    Kind = 6, "a kind is unknown";
    Arguments = 7, "a process has arguments that its kind does not take";
    NoEnd = 8, "a channel names an unknown process or port";
    PortTwice = 9, "two channels share a port";
    Unused = 10, "a port of a process has no channel";
    Sorts = 11, "a channel's sort differs from that of a port at its ends";
    Capacity = 12, "a capacity is out of range";
    Budget = 13, "the budget is out of range";
    Memory = 14, "out of memory";
    Input = 15, "the description is longer than 1,048,576 bytes";
    Tokens = 16, "a channel's start tokens have the wrong sort, or are more than its capacity";
    Step = 17, "the step is out of range";
    NoChannel = 34, "no input, or no output, is at this place or has this name";
    Ended = 35, "the input has ended";
    NoFlag = 36, "a word for an input of flags is neither 0 nor 1";
    NoInput = 38, "a channel to feed does not exist, or its writer does more than stop";
    NoOutput = 39, "a channel to drain does not exist, or its reader does more than read it";
    Twice = 40, "a channel is named twice";
}
