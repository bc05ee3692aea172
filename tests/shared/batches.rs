//! Cases given to the program `run_cases` many at a time, and what it prints compared with the
//! reference.

use crate::child;
use crate::comparison::Part;
use crate::tally::Tally;
use std::fmt::Debug;

/// A batch is closed from so many bytes on: with one case more it stays under the 262,144 that the
/// program reads.
const BATCH_BYTES: usize = 60_000;

/// A line for the program, all that it has to print for it, and what kinds of answer that is. A line
/// that only prepares the next ones has none.
pub struct Step<Class> {
    pub line: String,
    pub wanted: String,
    pub classes: Vec<Class>,
}

/// One or more lines that belong together.
pub trait Case {
    type Class: Copy + Debug + PartialEq;

    /// Each kind of answer, not met yet.
    fn tally() -> Tally<Self::Class>;

    fn steps(&self, label: &str) -> Vec<Step<Self::Class>>;
}

/// The line of a case: its key, its label and its bytes.
pub fn line(key: char, label: &str, bytes: &[u8]) -> String {
    let bytes = bytes.iter().map(|byte| format!(" {byte:02x}"));
    format!("{key} {label}:{}\n", bytes.collect::<String>())
}

/// The lines of each case, and what they have to print.
struct Batch {
    cases: Vec<Vec<(String, String)>>,
    bytes: usize,
}

impl Batch {
    /// The line that names the subject is printed too.
    fn new(subject: &str) -> Batch {
        let line = format!("{subject}\n");
        Batch {
            bytes: line.len(),
            cases: vec![vec![(line.clone(), line)]],
        }
    }

    fn add<Class>(&mut self, steps: Vec<Step<Class>>) {
        self.bytes += steps.iter().map(|step| step.line.len()).sum::<usize>();
        let lines = steps.into_iter().map(|step| (step.line, step.wanted));
        self.cases.push(lines.collect());
    }

    /// Fails with the first line that has not printed what is wanted.
    fn compare(&self, program: &str) -> Result<(), String> {
        let lines = self.cases.iter().flatten().map(|(line, _)| line.as_str());
        let text: String = lines.collect();
        let printed =
            child::printed(program, text.as_bytes()).map_err(|error| error.to_string())?;
        let printed = String::from_utf8_lossy(&printed);
        let mut rest = printed.as_ref();
        for case in &self.cases {
            for (number, (_, wanted)) in case.iter().enumerate() {
                let behind = rest.strip_prefix(wanted.as_str());
                rest = behind.ok_or_else(|| difference(&case[..=number], wanted, rest))?;
            }
        }
        if !rest.is_empty() {
            return Err(format!("more than was wanted:\n{rest}"));
        }
        Ok(())
    }
}

/// The lines of a case up to the one whose answer differs, and what was printed from there on.
fn difference(lines: &[(String, String)], wanted: &str, rest: &str) -> String {
    let lines: String = lines.iter().map(|(line, _)| line.as_str()).collect();
    let printed = rest.lines().take(wanted.lines().count().max(1));
    let printed: Vec<&str> = printed.collect();
    let printed = printed.join("\n");
    format!("{lines}wanted\n{wanted}printed\n{printed}")
}

/// The part of a comparison that runs these cases.
pub fn part<'a, C: Case>(
    program: &'a str,
    subject: &'a str,
    cases: impl Iterator<Item = C> + Send + 'a,
) -> Part<'a, C::Class> {
    Box::new(move || run(program, subject, cases))
}

/// Runs the program on all cases of a subject, and counts the kinds of answer that they wanted.
fn run<C: Case>(
    program: &str,
    subject: &str,
    cases: impl Iterator<Item = C>,
) -> Result<Tally<C::Class>, String> {
    let mut tally = C::tally();
    let mut batch = Batch::new(subject);
    for (number, case) in cases.enumerate() {
        let steps = case.steps(&number.to_string());
        for step in steps.iter().filter(|step| !step.classes.is_empty()) {
            tally.add(&step.classes);
        }
        batch.add(steps);
        if batch.bytes >= BATCH_BYTES {
            batch.compare(program)?;
            batch = Batch::new(subject);
        }
    }
    batch.compare(program)?;
    Ok(tally)
}
