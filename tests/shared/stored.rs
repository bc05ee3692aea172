//! The stored cases of `run_cases`, whose answers were written from the papers.

const LINES: &str = include_str!("../../crates/run_cases/stdin");
const PRINTED: &str = include_str!("../../crates/run_cases/stdout");

/// A line that is a case.
pub struct Line {
    pub key: char,
    pub label: &'static str,
    pub bytes: Vec<u8>,
}

/// The cases of a subject.
pub fn lines(subject: &str) -> impl Iterator<Item = Line> {
    let lines = section(LINES, subject).filter(|line| !line.starts_with('#'));
    lines.map(|line| {
        let (head, words) = line.split_once(':').expect("a colon behind the label");
        Line {
            key: head.chars().next().expect("a key"),
            label: head.get(2..).unwrap_or(""),
            bytes: words.split_whitespace().map(byte).collect(),
        }
    })
}

/// What is printed for the cases of a subject that are run.
pub fn printed(subject: &str) -> impl Iterator<Item = &'static str> {
    section(PRINTED, subject).filter(|line| !line.starts_with("not run, "))
}

/// The lines behind the last one that names the subject, up to the next subject's.
fn section(text: &'static str, subject: &str) -> impl Iterator<Item = &'static str> {
    let head = format!("{subject}\n");
    let (_, behind) = text.rsplit_once(&head).expect("the subject");
    behind.lines().take_while(|line| !line.starts_with("= "))
}

fn byte(word: &str) -> u8 {
    match word.as_bytes() {
        [b'\'', byte] => *byte,
        _ => u8::from_str_radix(word, 16).expect("two hexadecimal digits"),
    }
}
