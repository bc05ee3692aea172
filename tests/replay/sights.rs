//! What the histories of a run showed: a generator that reaches a state too seldom says little
//! about it.

/// A sight, and of a hundred histories those that must show it. The generator gives about twice as
/// many.
const SIGHTS: [(&str, u64); 24] = [
    ("reply", 42),
    ("never", 22),
    ("current", 30),
    ("current and negative", 19),
    ("age from 1 to 28", 12),
    ("age 29", 1),
    ("silent", 13),
    ("current and silent", 7),
    ("current from row 17 on", 5),
    ("silent from row 17 on", 3),
    ("current in row 40", 2),
    ("forty rows", 4),
    ("sequence from ff to 00", 6),
    ("again", 30),
    ("heard", 27),
    ("unread", 35),
    ("refusal 1", 22),
    ("refusal 2", 9),
    ("refusal 3", 20),
    ("refusal 4", 24),
    ("refusal 5", 13),
    ("refusal 6", 13),
    ("refused 15", 9),
    ("refused 15 after a reply", 2),
];

/// A run of fewer histories is printed and not judged.
const JUDGED_FROM: u64 = 1000;

pub struct Sights {
    histories: u64,
    shown: [u64; SIGHTS.len()],
    rows: [u64; 3],
}

const STATES: [&str; 3] = ["never", "current", "silent"];

impl Sights {
    pub fn new() -> Sights {
        Sights {
            histories: 0,
            shown: [0; SIGHTS.len()],
            rows: [0; 3],
        }
    }

    pub fn join(&mut self, other: &Sights) {
        self.histories += other.histories;
        self.shown
            .iter_mut()
            .zip(other.shown)
            .for_each(|(sum, more)| *sum += more);
        self.rows
            .iter_mut()
            .zip(other.rows)
            .for_each(|(sum, more)| *sum += more);
    }

    /// Counts what the output of one history shows.
    pub fn add(&mut self, output: &str) {
        let shown = shown(output);
        self.histories += 1;
        for ((sight, _), count) in SIGHTS.iter().zip(&mut self.shown) {
            *count += u64::from(shown.contains(sight));
        }
        for line in output.lines() {
            let state = line.split(' ').nth(1);
            if let Some(place) = STATES.iter().position(|name| state == Some(name)) {
                self.rows[place] += 1;
            }
        }
    }

    pub fn print(&self) {
        for ((sight, _), count) in SIGHTS.iter().zip(self.shown) {
            println!("  {count:>8} {sight}");
        }
        let [never, current, silent] = self.rows;
        println!("  rows: {never} never, {current} current, {silent} silent");
    }

    /// The sights that too few histories showed.
    pub fn rare(&self) -> Vec<&'static str> {
        let judged = self.histories >= JUDGED_FROM;
        let sights = SIGHTS.iter().zip(self.shown);
        sights
            .filter(|((_, least), count)| judged && count * 100 < least * self.histories)
            .map(|((sight, _), _)| *sight)
            .collect()
    }
}

/// Which of the sights the output has.
fn shown(output: &str) -> Vec<&'static str> {
    let lines: Vec<&str> = output.lines().collect();
    let mut shown = Vec::new();
    let mut see = |sight, seen| {
        if seen {
            shown.push(sight);
        }
    };
    let replies: Vec<&str> = lines
        .iter()
        .filter_map(|line| line.strip_prefix("reply 7e02"))
        .collect();
    see("reply", !replies.is_empty());
    let wraps = |pair: &[&str]| pair[0].starts_with("ff") && pair[1].starts_with("00");
    see("sequence from ff to 00", replies.windows(2).any(wraps));
    if lines.last() == Some(&"refused 15") {
        see("refused 15", true);
        see("refused 15 after a reply", !replies.is_empty());
        return shown;
    }
    let rows = &lines[replies.len()..lines.len() - 2];
    // Whether a row is in a state, of those from a number on.
    let from = |first: usize, name: &str| {
        let mut rows = rows.iter().skip(first - 1);
        rows.any(|row| row.split(' ').nth(1) == Some(name))
    };
    let state = |name: &str| from(1, name);
    see("never", state("never"));
    see("current", state("current"));
    see("silent", state("silent"));
    see("current and silent", state("current") && state("silent"));
    see("current from row 17 on", from(17, "current"));
    see("silent from row 17 on", from(17, "silent"));
    see("current in row 40", from(40, "current"));
    see("forty rows", rows.len() == 40);
    see(
        "current and negative",
        rows.iter().any(|row| row.contains("current -")),
    );
    let aged = |least: u64, most: u64| {
        let age = |row: &&str| row.split(' ').nth(3)?.parse::<u64>().ok();
        rows.iter()
            .filter_map(age)
            .any(|age| (least..=most).contains(&age))
    };
    see("age from 1 to 28", aged(1, 28));
    see("age 29", aged(29, 29));
    counted(&lines[lines.len() - 2..], &mut see);
    shown
}

/// The counts that are not 0, of the last two lines.
fn counted(lines: &[&str], see: &mut impl FnMut(&'static str, bool)) {
    let counts: Vec<&str> = lines.iter().flat_map(|line| line.split(' ')).collect();
    for (place, sight) in [(3, "again"), (5, "heard"), (7, "unread")] {
        see(sight, counts[place] != "0");
    }
    let refusals = SIGHTS
        .iter()
        .filter(|(sight, _)| sight.starts_with("refusal "));
    for (place, (sight, _)) in refusals.enumerate() {
        see(sight, counts[9 + place] != "0");
    }
}
