//! How often each kind of answer was wanted: a run that hardly met one has tested little there.

use std::fmt::Debug;

pub struct Tally<Class> {
    counts: Vec<(Class, u64)>,
    answers: u64,
}

impl<Class: Copy + Debug + PartialEq> Tally<Class> {
    pub fn new(classes: impl IntoIterator<Item = Class>) -> Tally<Class> {
        Tally {
            counts: classes.into_iter().map(|class| (class, 0)).collect(),
            answers: 0,
        }
    }

    /// Adds one answer, which may be of several kinds.
    pub fn add(&mut self, classes: &[Class]) {
        self.add_many(classes, 1);
    }

    /// Adds so many answers of the same kinds.
    pub fn add_many(&mut self, classes: &[Class], times: u64) {
        self.answers += times;
        for class in classes {
            self.add_times(*class, times);
        }
    }

    pub fn join(&mut self, other: &Tally<Class>) {
        self.answers += other.answers;
        for (class, count) in &other.counts {
            self.add_times(*class, *count);
        }
    }

    fn add_times(&mut self, class: Class, times: u64) {
        let entry = self.counts.iter_mut().find(|entry| entry.0 == class);
        entry.expect("every class has its count").1 += times;
    }

    /// How many answers there were.
    pub fn total(&self) -> u64 {
        self.answers
    }

    pub fn print(&self) {
        for (class, count) in &self.counts {
            println!("  {count:>8} {class:?}");
        }
    }

    /// The classes that were met fewer times than this.
    pub fn rare(&self, least: u64) -> Vec<Class> {
        let rare = self.counts.iter().filter(|entry| entry.1 < least);
        rare.map(|entry| entry.0).collect()
    }
}
