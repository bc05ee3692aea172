//! How `run_cases` prints a lent buffer.

use crate::line_bytes::hex;

/// What a buffer holds before the call.
const UNTOUCHED: u8 = 0xee;

/// A buffer of this length with these bytes at its start: its bytes up to the last that is not as it
/// was before the call, and how many follow.
pub fn lent(put: &[u8], room: usize) -> String {
    let last = put.iter().rposition(|byte| *byte != UNTOUCHED);
    let changed = last.map_or(0, |last| last + 1);
    format!("{}+{}", hex(&put[..changed]), room - changed)
}
