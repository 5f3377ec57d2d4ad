//! The program `calspan` as a call over memory: requests, lists and holidays as texts.
//!
//! # Examples
//!
//! ```
//! use icu_calendar::program::{calspan, Status};
//!
//! let request = b"span iso hebrew none none none from year=2024 month=M03 day=1 to year=2024 month=M03 day=1\n";
//! let run = calspan("span", request);
//! assert_eq!(run.status, Status::Done);
//! assert!(run.output.starts_with(b"ok 2024/default.2024/M03/01@738946 5784/am.5784/M05L/21@738946 "));
//! ```

use crate::ffi;
use alloc::vec;
use alloc::vec::Vec;

/// The code of a run whose output has more bytes than there was room for.
const NO_ROOM: u8 = 8;

/// How a run ended.
///
/// # Examples
///
/// ```
/// use icu_calendar::program::{calspan, Status};
///
/// assert_eq!(calspan("spin", b"").status, Status::Words);
/// ```
#[derive(Clone, Copy, Debug, PartialEq, Eq, Hash)]
pub enum Status {
    /// All is written, and no answer is an error.
    Done,
    /// All is written, and an answer is `err`; or a line says why the arguments, the book or a line are invalid.
    Refused,
    /// The words are no command. Nothing is written.
    Words,
    /// There was no memory. Nothing is written.
    NoMemory,
    /// A row line or a table is invalid. The last line says which.
    TableRefused,
    /// The input is longer than 16777216 bytes.
    TooLong,
}

/// What a run has written, and how it ended.
///
/// # Examples
///
/// ```
/// use icu_calendar::program::{calspan, Status};
///
/// let run = calspan("gen 1000", b"");
/// assert_eq!(run.status, Status::Done);
/// assert!(run.output.starts_with(b"gen 1000 ok 822 err 178 "));
/// ```
#[derive(Clone, Debug, PartialEq, Eq)]
pub struct Run {
    /// How the run ended.
    pub status: Status,
    /// The lines of the output.
    pub output: Vec<u8>,
}

fn status_of(code: u8) -> Status {
    match code {
        0 => Status::Done,
        1 => Status::Refused,
        2 => Status::Words,
        6 => Status::TableRefused,
        7 => Status::TooLong,
        _ => Status::NoMemory,
    }
}

/// Runs the program: `words` is its command line, with a single space between two words, and `input` is its standard
/// input. `docs/MANUAL.md` describes the commands.
///
/// # Examples
///
/// ```
/// use icu_calendar::program::calspan;
///
/// let run = calspan("anniversary hebrew iso exact M01 1 738779 738779", b"");
/// assert_eq!(run.output, b"5784/am.5784/M01/01@738779 2023/default.2023/M09/16@738779\n");
/// ```
pub fn calspan(words: &str, input: &[u8]) -> Run {
    // Twice the input is enough for most answers. The same run writes the same, so a second one has enough room.
    let mut output = vec![0; 2 * input.len() + 256];
    let (mut code, mut written) = ffi::calspan(words, input, &mut output);
    if code == NO_ROOM {
        output = vec![0; written];
        (code, written) = ffi::calspan(words, input, &mut output);
    }
    output.truncate(written);
    Run {
        status: status_of(code),
        output,
    }
}
