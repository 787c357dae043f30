//! Whole texts, from memory to memory: scripts, histories and traces, as casdisk takes them.
use crate::error::{Error, told};
use std::fmt;
use std::ops::BitOr;
use vandrexu_sys as sys;

/// The kinds of lines that a run shows.
///
/// ```
/// use vandrexu::Lines;
///
/// assert_eq!((Lines::POST | Lines::REAP).bits(), 48);
/// ```
#[derive(Clone, Copy, Debug, PartialEq, Eq, Hash)]
pub struct Lines(u8);

impl Lines {
    /// `publish` lines.
    pub const PUBLISH: Lines = Lines(sys::VANDREXU_PUBLISH_LINES as u8);
    /// `fetch` lines.
    pub const FETCH: Lines = Lines(sys::VANDREXU_FETCH_LINES as u8);
    /// `grant` lines.
    pub const GRANT: Lines = Lines(sys::VANDREXU_GRANT_LINES as u8);
    /// `block` lines.
    pub const BLOCK: Lines = Lines(sys::VANDREXU_BLOCK_LINES as u8);
    /// `post` lines.
    pub const POST: Lines = Lines(sys::VANDREXU_POST_LINES as u8);
    /// `reap` lines.
    pub const REAP: Lines = Lines(sys::VANDREXU_REAP_LINES as u8);
    /// `refused` lines.
    pub const REFUSED: Lines = Lines(sys::VANDREXU_REFUSED_LINES as u8);
    /// `medium` lines.
    pub const MEDIUM: Lines = Lines(sys::VANDREXU_MEDIUM_LINES as u8);
    /// All of them.
    pub const ALL: Lines = Lines(sys::VANDREXU_ALL_LINES as u8);
    /// The kinds that a history has.
    pub const HISTORY: Lines = Lines(63);

    /// The sum of vandrexu.h.
    #[must_use]
    pub fn bits(self) -> u8 {
        self.0
    }
}

impl BitOr for Lines {
    type Output = Lines;

    fn bitor(self, other: Lines) -> Lines {
        Lines(self.0 | other.0)
    }
}

/// Why a text isn't what it should be.
#[derive(Clone, Debug, PartialEq, Eq)]
pub struct TextError {
    /// What it is.
    pub error: Error,
    /// The line that it is about, from 1.
    pub line: Option<u64>,
    /// What was written before.
    pub text: Vec<u8>,
    /// What refutes the trace ([`refute_text`]), where [`observe_text`] answers [`Error::NotExplained`].
    pub refutation: Vec<u8>,
}

impl fmt::Display for TextError {
    fn fmt(&self, f: &mut fmt::Formatter<'_>) -> fmt::Result {
        match self.line {
            Some(line) => write!(f, "line {line}: {}", self.error),
            None => self.error.fmt(f),
        }
    }
}

impl std::error::Error for TextError {}

// What a status says of a text.
fn answer(status: u32, line: u64, text: Vec<u8>) -> Result<Vec<u8>, TextError> {
    match told(status) {
        Ok(()) => Ok(text),
        Err(error) => Err(TextError { error, line: (line != 0).then_some(line), text, refutation: vec![] }),
    }
}

// Asks with some room, and once more where that is too short.
fn ask(call: impl Fn(*mut u8, usize, *mut usize, *mut u64) -> u32) -> Result<Vec<u8>, TextError> {
    let mut text = vec![0; 4096];
    loop {
        let (mut needed, mut line) = (0, 0);
        let status = call(text.as_mut_ptr(), text.len(), &mut needed, &mut line);
        text.resize(needed, 0);
        if status != sys::VANDREXU_TOO_SMALL {
            return answer(status, line, text);
        }
    }
}

/// Runs a script (docs/SCRIPTS.md), and returns what a run of it prints, the lines of these kinds.
///
/// ```
/// use vandrexu::{Error, Lines, run_text};
///
/// let text = run_text("config 8 1 1 0 0 1 4 4 8\nmedium 0\n", Lines::ALL)?;
/// assert!(text.starts_with(b"config 8 1 1 0 0 1 4 4 8\nmedium 0 "));
/// let refused = run_text("config 8 1 1 0 0 1 4 4 8\nfetch it\n", Lines::ALL).unwrap_err();
/// assert_eq!((refused.error, refused.line), (Error::BadLine, Some(2)));
/// assert_eq!(refused.text, b"config 8 1 1 0 0 1 4 4 8\n");
/// # Ok::<(), vandrexu::TextError>(())
/// ```
///
/// # Errors
/// [`Error::BadLine`] with the first bad line, behind the text of the lines before it; a configuration's fault;
/// [`Error::NoMemory`].
pub fn run_text(script: impl AsRef<[u8]>, lines: Lines) -> Result<Vec<u8>, TextError> {
    let script = script.as_ref();
    // SAFETY: the texts are there during the call; so much room is there.
    ask(|out, room, needed, line| unsafe {
        sys::vandrexu_run_text(script.as_ptr(), script.len(), lines.bits(), out, room, needed, line)
    })
}

/// Checks a history (docs/CHECKING.md) with its configuration line, and returns the line that says that it is legal.
///
/// # Errors
/// [`Error::NotLegal`] where it isn't, behind the line that says where; [`Error::BadLine`] with its first bad line; a
/// configuration's fault; [`Error::NoMemory`].
pub fn check_text(history: impl AsRef<[u8]>) -> Result<Vec<u8>, TextError> {
    let history = history.as_ref();
    // SAFETY: as in run_text.
    ask(|out, room, needed, line| unsafe {
        sys::vandrexu_check_text(history.as_ptr(), history.len(), out, room, needed, line)
    })
}

/// Says whether a history explains a trace (docs/OBSERVING.md), and returns the line that says so.
///
/// # Errors
/// [`Error::NotExplained`] where it doesn't, behind the line that says why; [`Error::BadLine`] with the first bad line
/// of the trace, or its configuration's fault; [`Error::BadHistory`] with the first bad line of the history;
/// [`Error::OtherConfig`]; [`Error::NoMemory`].
pub fn certify_text(trace: impl AsRef<[u8]>, history: impl AsRef<[u8]>) -> Result<Vec<u8>, TextError> {
    let (trace, history) = (trace.as_ref(), history.as_ref());
    // SAFETY: as in run_text.
    ask(|out, room, needed, line| unsafe {
        sys::vandrexu_certify_text(
            trace.as_ptr(),
            trace.len(),
            history.as_ptr(),
            history.len(),
            out,
            room,
            needed,
            line,
        )
    })
}

/// Says whether a trace is refuted (docs/OBSERVING.md), and returns the line that says so: no legal history explains it.
///
/// # Errors
/// [`Error::NotRefuted`] where it isn't by this, behind the line that says why; [`Error::BadLine`] with the first bad
/// line of the trace, or its configuration's fault; [`Error::BadHistory`] with the first bad line of the refutation;
/// [`Error::NoMemory`].
pub fn refute_text(trace: impl AsRef<[u8]>, refutation: impl AsRef<[u8]>) -> Result<Vec<u8>, TextError> {
    let (trace, refutation) = (trace.as_ref(), refutation.as_ref());
    // SAFETY: as in run_text.
    ask(|out, room, needed, line| unsafe {
        sys::vandrexu_refute_text(
            trace.as_ptr(),
            trace.len(),
            refutation.as_ptr(),
            refutation.len(),
            out,
            room,
            needed,
            line,
        )
    })
}

/// Looks for a history that explains a trace, in so many steps at most, and returns it. (casdisk takes 10,000,000.)
///
/// ```
/// use vandrexu::{certify_text, observe_text};
///
/// // a Flush with CID 7, and its completion
/// let publish = format!("publish 1 0000070001{} -", "0".repeat(118));
/// let trace = format!("config 8 1 1 0 0 1 4 4 8\n{publish}\nreap 1 00000000000000000100010007000100 -\n");
/// assert_eq!(certify_text(&trace, observe_text(&trace, 1000)?)?, b"explained\n");
/// # Ok::<(), vandrexu::TextError>(())
/// ```
///
/// # Errors
/// [`Error::NotExplained`] where there is none, with what refutes the trace; [`Error::NotFound`] where neither was
/// found; [`Error::GaveUp`] where the steps were used up; [`Error::BadLine`] with the first bad line of the trace; its configuration's fault; [`Error::NoMemory`].
pub fn observe_text(trace: impl AsRef<[u8]>, steps: u64) -> Result<Vec<u8>, TextError> {
    let trace = trace.as_ref();
    let (mut history, mut text) = (vec![0; 4096], vec![0; 256]);
    loop {
        let (mut found, mut needed, mut line) = (0, 0, 0);
        // SAFETY: as in run_text, of both rooms.
        let status = unsafe {
            sys::vandrexu_observe_text(
                trace.as_ptr(),
                trace.len(),
                steps,
                history.as_mut_ptr(),
                history.len(),
                &mut found,
                text.as_mut_ptr(),
                text.len(),
                &mut needed,
                &mut line,
            )
        };
        history.resize(found, 0);
        text.resize(needed, 0);
        if status != sys::VANDREXU_TOO_SMALL {
            return match answer(status, line, text) {
                Ok(_) => Ok(history),
                Err(error) => Err(TextError { refutation: history, ..error }),
            };
        }
    }
}
