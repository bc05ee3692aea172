//! The library's frame check on whole frames.

use crate::archive;
use crate::frame::{between_flags, read_frame, stuff, Frame, Refusal, Refused, PAYLOAD_MAX};
use crate::line_bytes::hex;

/// The frame that the library takes, or its whole report if it refuses.
pub fn read(sent: &[u8]) -> Result<Frame, u64> {
    let mut output = [0; PAYLOAD_MAX];
    let report = archive::frame_check(sent, &mut output);
    if report & 0xff != 0 {
        return Err(report);
    }
    let length = (report >> 24) as usize;
    Ok(Frame {
        kind: (report >> 8) as u8,
        sequence: (report >> 16) as u8,
        payload: output[..length].to_vec(),
    })
}

/// The answer of the reference, which has to be the library's, its place too.
pub fn read_by_both(sent: &[u8]) -> Result<Result<Frame, Refusal>, String> {
    let wanted = read_frame(sent, PAYLOAD_MAX);
    let report = |refused: Refused| archive::refused(refused.reason.number(), refused.place);
    let got = read(sent);
    if got != wanted.clone().map_err(report) {
        let sent = hex(sent);
        return Err(format!("frame {sent}: {got:x?}, wanted {wanted:x?}"));
    }
    Ok(wanted.map_err(|refused| refused.reason))
}

/// A frame that both take.
pub fn taken(sent: &[u8]) -> Result<Frame, String> {
    read_by_both(sent)?.map_err(|refusal| format!("frame {}: {refusal:?}", hex(sent)))
}

pub fn framed(content: &[u8]) -> Vec<u8> {
    between_flags(&stuff(content))
}
