//! The table of what was compared.

use std::{fmt::Debug, time::Instant};

use restoration::{GREY_PLANES, PLANES, Refusal};

/// How many differences of a row are printed.
const SHOWN: u64 = 5;

/// How much is compared.
#[derive(Clone, Copy)]
pub enum Amount {
    /// All cases; the random ones are multiplied.
    All(u64),
    /// At least a thousand cases of each row, or all if it has fewer, for a run under valgrind.
    Some,
}

impl Amount {
    /// How many cases of a row that has few.
    pub fn few(self, cases: u64) -> u64 {
        match self {
            Self::All(scale) => cases * scale,
            Self::Some => cases,
        }
    }

    /// How many cases a row with so many random ones has at least.
    pub fn least(self, cases: u64) -> u64 {
        match self {
            Self::All(scale) => cases * scale,
            Self::Some => cases.min(ENOUGH),
        }
    }
}

/// `Amount::Some` compares this many cases of a row before it skips any.
const ENOUGH: u64 = 1_000;
/// `Amount::Some` then compares every second case after this many, every fourth after twice as many,
/// and so on.
const THINNED: u64 = 256;
/// How often a required number must be expected.
const SEEN: u64 = 1_000;
/// How many numbers there are: 0, and one per refusal.
const NUMBERS: usize = 1 + Refusal::ALL.len();

/// One line of the table.
pub struct Row {
    subject: &'static str,
    inputs: &'static str,
    /// Cases or draws so far, whether they are compared or not.
    offered: u64,
    cases: u64,
    differ: u64,
    /// How often each number was expected; 0 is an accepted call.
    numbers: [u64; NUMBERS],
    /// Pictures whose bands are the cases.
    pictures: u64,
    /// Cases with mixed groups. Those that are compared with an original are compared with the one without its carry.
    mixed: u64,
    /// Cases that are refused with 9 and have a wrong number of planes.
    planes: u64,
    /// The numbers that must be expected often enough.
    required: &'static [u32],
}

impl Row {
    pub fn new(subject: &'static str, inputs: &'static str) -> Self {
        Self {
            subject,
            inputs,
            offered: 0,
            cases: 0,
            differ: 0,
            numbers: [0; NUMBERS],
            pictures: 0,
            mixed: 0,
            planes: 0,
            required: &[],
        }
    }

    /// Whether the next case is compared. With `Amount::Some` these are the first thousand and then fewer
    /// and fewer.
    pub fn takes(&mut self, amount: Amount) -> bool {
        let n = self.offered;
        self.offered += 1;
        match amount {
            Amount::All(_) => true,
            Amount::Some => {
                self.cases < ENOUGH || n.is_multiple_of((n / THINNED + 1).next_power_of_two())
            }
        }
    }

    /// Whether there is another random draw; `draws` is their number before `--scale`.
    pub fn draws(&mut self, draws: u64, amount: Amount) -> bool {
        self.offered += 1;
        match amount {
            Amount::All(scale) => self.offered <= draws * scale,
            Amount::Some => self.offered <= draws && self.cases < ENOUGH,
        }
    }

    /// A picture that is compared band by band, and then as a whole.
    pub fn by_bands(&mut self) {
        self.pictures += 1;
    }

    /// A case whose groups are mixed or not (`originals::is_mixed`).
    pub fn of_groups(&mut self, mixed: bool) {
        self.mixed += u64::from(mixed);
    }

    /// A case with so many planes that this number is expected of.
    pub fn of_planes(&mut self, planes: u32, number: u32) {
        let fits = matches!(planes, GREY_PLANES | PLANES);
        self.planes += u64::from(!fits && number == Refusal::OutOfRange.number());
    }

    pub fn count(&mut self, number: u32) {
        self.cases += 1;
        self.numbers[number as usize] += 1;
    }

    /// If all cases are compared, each of these numbers must have been expected a thousand times, or the
    /// row counts as differing.
    pub fn require(&mut self, numbers: &'static [u32], amount: Amount) {
        let Amount::All(_) = amount else {
            return;
        };
        self.required = numbers;
        for &number in numbers {
            let seen = self.numbers[number as usize];
            self.at_least(&format!("times that {number} was expected"), seen, SEEN);
        }
    }

    /// If all cases are compared, a thousand must be refused that have a wrong number of planes.
    pub fn require_planes(&mut self, amount: Amount) {
        if let Amount::All(_) = amount {
            self.at_least("cases of a wrong number of planes", self.planes, SEEN);
        }
    }

    /// The row counts as differing if a count is below its minimum.
    pub fn at_least(&mut self, what: &str, count: u64, least: u64) {
        if count < least {
            self.differs(&what, &count, &format_args!("at least {least}"));
        }
    }

    pub fn differs(&mut self, case: &dyn Debug, given: &dyn Debug, expected: &dyn Debug) {
        self.differ += 1;
        if self.differ <= SHOWN {
            println!("{} at {case:?}", self.subject);
            println!("  given    {given:?}");
            println!("  expected {expected:?}");
        }
    }

    #[cfg(test)]
    pub fn differing(&self) -> u64 {
        self.differ
    }

    /// How often each number was expected, with a mark at the required ones.
    fn counts(&self) -> String {
        let counts: Vec<String> = (0..)
            .zip(self.numbers)
            .filter(|&(_, times)| times > 0)
            .map(|(number, times): (u32, u64)| {
                let mark = if self.required.contains(&number) {
                    "*"
                } else {
                    ""
                };
                format!("{number}: {times}{mark}")
            })
            .collect();
        counts.join(", ")
    }

    /// What a case is if it is not a call or a picture, and how many have mixed groups or wrong numbers of planes.
    fn about_cases(&self) -> String {
        let mut about = String::new();
        if self.pictures > 0 {
            about += &format!("; bands of {} pictures", self.pictures);
        }
        if self.mixed > 0 {
            about += &format!("; {} of mixed groups", self.mixed);
        }
        if self.planes > 0 {
            about += &format!("; {} of a wrong number of planes", self.planes);
        }
        about
    }
}

pub struct Report {
    rows: Vec<Row>,
    started: Instant,
}

impl Report {
    pub fn new() -> Self {
        Self {
            rows: Vec::new(),
            started: Instant::now(),
        }
    }

    pub fn add(&mut self, row: Row) {
        self.rows.push(row);
    }

    /// Prints the table and answers whether it has this many rows, each with cases, and nothing differs.
    pub fn finish(&self, rows: usize) -> bool {
        println!(
            "{:<18} {:<14} {:>9} {:>7}  numbers expected (0 is accepted, * must be expected {SEEN} times)",
            "compared", "inputs", "cases", "differ"
        );
        for row in &self.rows {
            println!(
                "{:<18} {:<14} {:>9} {:>7}  {}{}",
                row.subject,
                row.inputs,
                row.cases,
                row.differ,
                row.counts(),
                row.about_cases()
            );
        }
        let cases: u64 = self.rows.iter().map(|row| row.cases).sum();
        let differ: u64 = self.rows.iter().map(|row| row.differ).sum();
        let seconds = self.started.elapsed().as_secs_f64();
        println!("{cases} cases compared in {seconds:.1} s, {differ} differ");
        let complete = self.rows.len() == rows && self.rows.iter().all(|row| row.cases > 0);
        if !complete {
            println!("a row is missing or has no cases: {rows} rows are expected");
        }
        differ == 0 && complete
    }
}
