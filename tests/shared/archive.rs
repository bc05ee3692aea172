//! The static library's functions, callable with slices. `arznavik.h` has their meaning.

extern "C" {
    fn arznavik_crc(start: u16, bytes: *const u8, length: usize) -> u16;
    fn arznavik_frame_write(
        kind: u8,
        sequence: u8,
        payload: *const u8,
        payload_length: usize,
        output: *mut u8,
        output_length: usize,
    ) -> u64;
    fn arznavik_frame_check(
        frame: *const u8,
        frame_length: usize,
        output: *mut u8,
        output_length: usize,
    ) -> u64;
}

/// The report of a call that was refused, as `arznavik.h` lays it out.
pub fn refused(number: u8, place: usize) -> u64 {
    u64::from(number) | (place as u64) << 40
}

// A slice is never NULL, is valid for its length, and `&mut` overlaps nothing: all that is owed.

pub fn crc(start: u16, bytes: &[u8]) -> u16 {
    unsafe { arznavik_crc(start, bytes.as_ptr(), bytes.len()) }
}

pub fn frame_write(kind: u8, sequence: u8, payload: &[u8], output: &mut [u8]) -> u64 {
    unsafe {
        arznavik_frame_write(
            kind,
            sequence,
            payload.as_ptr(),
            payload.len(),
            output.as_mut_ptr(),
            output.len(),
        )
    }
}

pub fn frame_check(frame: &[u8], output: &mut [u8]) -> u64 {
    unsafe {
        arznavik_frame_check(
            frame.as_ptr(),
            frame.len(),
            output.as_mut_ptr(),
            output.len(),
        )
    }
}
