use crate::bytes::within;
use crate::sys::{self, verdict};

/// What a session shows.
#[derive(Clone, Copy, Debug, PartialEq, Eq)]
pub struct View {
    /// Fragments heard, repeats included, at most 16,383.
    pub received: u16,
    /// Pieces still to be gained.
    pub missing: u16,
    /// What is known of the file.
    pub verdict: Verdict,
}

/// What is known of a file. `mark` is that of the fragment that decided the session.
#[derive(Clone, Copy, Debug, PartialEq, Eq)]
pub enum Verdict {
    /// More than one file fits the fragments heard.
    Receiving,
    /// One file alone fits them.
    Complete {
        /// The mark of the fragment that decided it.
        mark: u64,
        /// The bytes of the whole file.
        length: usize,
    },
    /// There were more independent coded fragments than rows.
    NoRows {
        /// The mark of the fragment that decided it.
        mark: u64,
    },
    /// No file fits.
    Conflict {
        /// The mark of the fragment that decided it.
        mark: u64,
    },
}

impl View {
    /// What the library has written; None where its verdict is none that it gives.
    pub(crate) fn of(view: &sys::View) -> Option<Self> {
        let mark = view.mark;
        let verdict = match view.verdict {
            verdict::RECEIVING => Verdict::Receiving,
            verdict::COMPLETE => {
                Verdict::Complete { mark, length: within(view.file_length, usize::MAX) }
            }
            verdict::NO_ROWS => Verdict::NoRows { mark },
            verdict::CONFLICT => Verdict::Conflict { mark },
            _ => return None,
        };
        Some(Self { received: view.received, missing: view.missing, verdict })
    }
}
