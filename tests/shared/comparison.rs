//! A run that compares a program with the reference: its arguments, its workers, and what it says
//! at its end.

use crate::seeds;
use crate::tally::Tally;
use std::fmt::Debug;
use std::process::ExitCode;
use std::thread;

/// A part of a run, which has a thread and a tally of its own.
pub type Part<'a, Class> = Box<dyn FnOnce() -> Result<Tally<Class>, String> + Send + 'a>;

pub struct Comparison<Class> {
    pub name: &'static str,
    /// Each kind of answer, not met yet.
    pub tally: Tally<Class>,
    /// How often each must be wanted for each seed.
    pub least: u64,
}

impl<Class: Copy + Debug + PartialEq + Send> Comparison<Class> {
    /// Reads the arguments, which are the program and seeds, and does the parts that they give.
    pub fn main<Parts>(self, parts: Parts) -> ExitCode
    where
        Parts: for<'a> Fn(&'a str, &'a [u64]) -> Vec<Part<'a, Class>>,
    {
        let mut words = std::env::args().skip(1);
        let Some(program) = words.next() else {
            eprintln!("usage: {}_test PROGRAM [SEED...]", self.name);
            return ExitCode::from(2);
        };
        let seeds = match seeds::seeds(words) {
            Ok(seeds) => seeds,
            Err(fault) => {
                eprintln!("{fault}");
                return ExitCode::from(2);
            }
        };
        match self.run(parts(&program, &seeds)) {
            Ok(met) => met.report(&seeds),
            Err(difference) => {
                eprintln!("{difference}");
                ExitCode::FAILURE
            }
        }
    }

    fn run(mut self, parts: Vec<Part<Class>>) -> Result<Self, String> {
        thread::scope(|scope| {
            let workers: Vec<_> = parts.into_iter().map(|part| scope.spawn(part)).collect();
            for worker in workers {
                let met = worker.join().expect("a worker that ended")?;
                self.tally.join(&met);
            }
            Ok(self)
        })
    }

    /// Fails if a kind of answer was hardly met.
    fn report(&self, seeds: &[u64]) -> ExitCode {
        self.tally.print();
        let total = self.tally.total();
        println!("{}: seeds {seeds:?}, {total} cases alike", self.name);
        let rare = self.tally.rare(self.least * seeds.len() as u64);
        if !rare.is_empty() {
            eprintln!("too few cases wanted {rare:?}");
        }
        ExitCode::from(u8::from(!rare.is_empty()))
    }
}
