//! The library's check, held to the division of polynomials.

use crate::archive;
use crate::content::Content;
use crate::division;
use crate::line_bytes::hex;

/// The check of both, which has to be the same.
pub fn checked(start: u16, bytes: &[u8]) -> Result<u16, String> {
    let (got, wanted) = (archive::crc(start, bytes), division::check(start, bytes));
    if got != wanted {
        let bytes = hex(bytes);
        return Err(format!(
            "start {start:04x}, bytes {bytes}: {got:04x}, wanted {wanted:04x}"
        ));
    }
    Ok(got)
}

/// A content passes before it is damaged.
pub fn passes(content: &Content) -> Result<(), String> {
    match checked(content.start, &content.bytes)? {
        0 => Ok(()),
        check => Err(format!("{content}: its check is {check:04x}")),
    }
}
