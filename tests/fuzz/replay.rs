//! Fuzzes the compiled program `replay`. It runs in this process, its calls of `read` and `write`
//! led to the functions here, and what it prints is held to the program written a second time from
//! document 01. An input is a history.

#[path = "../reference/board.rs"]
#[allow(dead_code)]
mod board;
#[path = "../reference/frame.rs"]
#[allow(dead_code)]
mod frame;
#[path = "../replay/histories.rs"]
#[allow(dead_code)]
mod histories;
mod mutate;
#[path = "../reference/packet.rs"]
#[allow(dead_code)]
mod packet;
#[path = "../reference/program.rs"]
mod program;
#[path = "../shared/random.rs"]
mod random;
#[path = "../reference/receiver.rs"]
#[allow(dead_code)]
mod receiver;
#[path = "../reference/watch_list.rs"]
#[allow(dead_code)]
mod watch_list;

use std::cell::RefCell;
use std::slice;

const INPUT: i32 = 0;
const OUTPUT: i32 = 1;
const FAILED: isize = -1;
/// The system's number for a device that fails. After an interrupted call the program calls again.
const EIO: i32 = 5;

/// Standard input and output of one run.
#[derive(Default)]
struct Line {
    history: Vec<u8>,
    read: usize,
    printed: Vec<u8>,
    /// The most bytes that a call takes.
    most: usize,
    /// Calls until one fails, if one is to fail.
    reads_left: Option<usize>,
    writes_left: Option<usize>,
}

thread_local! {
    static LINE: RefCell<Line> = RefCell::default();
}

extern "C" {
    fn replay_main() -> i32;
    fn coverage_start();
    fn __errno_location() -> *mut i32;
}

/// What a call that fails answers.
fn failed() -> isize {
    unsafe { *__errno_location() = EIO };
    FAILED
}

/// Whether the call that counts down here fails; it is to be the last one.
fn fails(left: &mut Option<usize>, what: &str) -> bool {
    match left {
        None => false,
        Some(0) => {
            *left = Some(usize::MAX);
            true
        }
        Some(usize::MAX) => panic!("{what} after one that failed"),
        Some(count) => {
            *count -= 1;
            false
        }
    }
}

#[no_mangle]
extern "C" fn replay_read(descriptor: i32, bytes: *mut u8, count: usize) -> isize {
    assert_eq!(descriptor, INPUT);
    let buffer = unsafe { slice::from_raw_parts_mut(bytes, count) };
    LINE.with_borrow_mut(|line| {
        // A piece of no bytes is read too, and a failure there loses nothing.
        if count != 0 && fails(&mut line.reads_left, "a read") {
            return failed();
        }
        let rest = &line.history[line.read..];
        let taken = rest.len().min(count).min(line.most);
        buffer[..taken].copy_from_slice(&rest[..taken]);
        line.read += taken;
        taken as isize
    })
}

#[no_mangle]
extern "C" fn replay_write(descriptor: i32, bytes: *const u8, count: usize) -> isize {
    assert_eq!(descriptor, OUTPUT);
    let buffer = unsafe { slice::from_raw_parts(bytes, count) };
    LINE.with_borrow_mut(|line| {
        if fails(&mut line.writes_left, "a write") {
            return failed();
        }
        let taken = count.min(line.most);
        line.printed.extend(&buffer[..taken]);
        taken as isize
    })
}

fn run(line: Line) -> Line {
    LINE.set(line);
    let status = unsafe { replay_main() };
    assert_eq!(status, 0, "exit status");
    LINE.take()
}

fn expect_printed(printed: &[u8], expected: &str) {
    if printed != expected.as_bytes() {
        let printed = String::from_utf8_lossy(printed);
        panic!("expected\n{expected}printed\n{printed}");
    }
}

/// All is read and written at once; then once more, in short parts or until a write or a read
/// fails.
fn fuzz(history: &[u8]) {
    let expected = program::output(history);
    let line = |most| Line {
        history: history.to_vec(),
        most,
        ..Line::default()
    };
    expect_printed(&run(line(usize::MAX)).printed, &expected);
    let sum = history.iter().fold(history.len(), |sum, &byte| {
        sum * 31 % 65_521 + usize::from(byte)
    });
    match sum % 3 {
        0 => expect_printed(&run(line(1 + sum % 7)).printed, &expected),
        1 => {
            let ended = run(Line {
                writes_left: Some(sum % 16),
                ..line(usize::MAX)
            });
            assert!(
                expected.as_bytes().starts_with(&ended.printed),
                "a write failed"
            );
        }
        _ => {
            let ended = run(Line {
                reads_left: Some(sum % 64),
                ..line(usize::MAX)
            });
            let expected = program::output(&history[..ended.read]);
            assert!(
                expected.as_bytes().starts_with(&ended.printed),
                "a read failed"
            );
        }
    }
}

#[no_mangle]
extern "C" fn LLVMFuzzerInitialize(_count: *mut i32, _words: *mut *mut *mut u8) -> i32 {
    unsafe { coverage_start() };
    0
}

#[no_mangle]
extern "C" fn LLVMFuzzerTestOneInput(data: *const u8, size: usize) -> i32 {
    if size != 0 {
        fuzz(unsafe { slice::from_raw_parts(data, size) });
    }
    0
}
