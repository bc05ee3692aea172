//! Inputs tried one after the other in one process: what fails is printed, each kind of answer
//! counted.

use crate::seeds;
use crate::tally::Tally;
use std::fmt::Debug;
use std::process::ExitCode;

/// Failures that are printed before the run gives up.
const FAILURES_SHOWN: usize = 5;

pub struct Trials<Class> {
    tally: Tally<Class>,
    failures: usize,
}

impl<Class: Copy + Debug + PartialEq> Trials<Class> {
    pub fn note(&mut self, input: &str, result: Result<Class, String>) {
        self.note_many(input, result.map(|class| ([class], 1)));
    }

    /// Several inputs with answers of the same kinds, or the first that failed. Says how many were
    /// answered as wanted.
    pub fn note_many(
        &mut self,
        input: &str,
        result: Result<(impl AsRef<[Class]>, u64), String>,
    ) -> u64 {
        match result {
            Ok((classes, times)) => {
                self.tally.add_many(classes.as_ref(), times);
                times
            }
            Err(fault) => {
                println!("FAILED {input}: {fault}");
                self.failures += 1;
                0
            }
        }
    }

    pub fn repeat(
        &mut self,
        times: usize,
        input: &str,
        mut run: impl FnMut() -> Result<Class, String>,
    ) {
        for number in 0..times {
            if self.failures >= FAILURES_SHOWN {
                return;
            }
            self.note(&format!("{input} {number}"), run());
        }
    }

    pub fn each<Input>(
        &mut self,
        input: &str,
        inputs: impl Iterator<Item = Input>,
        run: impl Fn(&Input) -> Result<Class, String>,
    ) {
        self.each_many(input, inputs, |each| run(each).map(|class| ([class], 1)));
    }

    /// The same, with several inputs in one.
    pub fn each_many<Input, Classes: AsRef<[Class]>>(
        &mut self,
        input: &str,
        inputs: impl Iterator<Item = Input>,
        mut run: impl FnMut(&Input) -> Result<(Classes, u64), String>,
    ) -> u64 {
        let mut answered = 0;
        for each in inputs {
            if self.failures >= FAILURES_SHOWN {
                break;
            }
            answered += self.note_many(input, run(&each));
        }
        answered
    }

    /// Fails if an input did, or if a kind of answer was met fewer times than this.
    fn report(&self, name: &str, seeds: &[u64], least: u64) -> ExitCode {
        self.tally.print();
        let rare = self.tally.rare(least);
        if self.failures == 0 && !rare.is_empty() {
            println!("FAILED met under {least} times: {rare:?}");
        }
        let (total, failures) = (self.tally.total(), self.failures);
        println!("{name}: seeds {seeds:?}, {total} inputs answered as wanted, {failures} failed");
        ExitCode::from(u8::from(failures != 0 || !rare.is_empty()))
    }
}

/// A run of this name over the seeds that the arguments name. It has to meet each kind of answer at
/// least so often.
pub fn main<Class: Copy + Debug + PartialEq>(
    name: &str,
    classes: impl Iterator<Item = Class>,
    least: u64,
    run: impl FnOnce(&mut Trials<Class>, &[u64]),
) -> ExitCode {
    let seeds = match seeds::seeds(std::env::args().skip(1)) {
        Ok(seeds) => seeds,
        Err(fault) => {
            eprintln!("{fault}");
            return ExitCode::from(2);
        }
    };
    let mut trials = Trials {
        tally: Tally::new(classes),
        failures: 0,
    };
    run(&mut trials, &seeds);
    trials.report(name, &seeds, least)
}
