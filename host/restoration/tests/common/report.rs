//! What was compared.

use std::{env, fmt::Debug, process::ExitCode, time::Instant};

use restoration::Refusal;

/// How many differences are printed.
const SHOWN: u64 = 5;
/// How often each number of a function must be expected, if all inputs are compared.
const SEEN: u64 = 1_000;
/// How many numbers there are: 0, and one per refusal.
const NUMBERS: usize = 1 + Refusal::ALL.len();

/// How many inputs are compared.
#[derive(Clone, Copy, PartialEq)]
pub enum Amount {
    All,
    /// One in `THINNED`.
    Some,
}

const THINNED: u64 = 50;

impl Amount {
    /// Some with the argument `--some`, and in a debug build, which is slow.
    pub fn of_arguments() -> Self {
        let some = env::args().any(|argument| argument == "--some");
        if cfg!(debug_assertions) {
            println!("debug build: one input in {THINNED} is compared; with --release all are");
        }
        if some || cfg!(debug_assertions) {
            Self::Some
        } else {
            Self::All
        }
    }

    /// At least so many of these are compared.
    fn of(self, inputs: u64) -> u64 {
        match self {
            Self::All => inputs,
            Self::Some => inputs / THINNED,
        }
    }
}

/// A function's name, and the numbers that it can give.
#[derive(Clone, Copy)]
pub struct Function {
    name: &'static str,
    numbers: &'static [u32],
}

impl Function {
    pub const fn new(name: &'static str, numbers: &'static [u32]) -> Self {
        Self { name, numbers }
    }
}

/// A section's name, how many inputs it has at least, and the function that compares them.
pub type Section = (&'static str, u64, fn(&mut Report));

pub struct Report {
    started: Instant,
    amount: Amount,
    offered: u64,
    /// The name of the section that is compared.
    section: &'static str,
    /// Each function, and how often it was expected to give each number.
    functions: Vec<(Function, [u64; NUMBERS])>,
    /// Inputs of all sections so far.
    inputs: u64,
    calls: u64,
    differ: u64,
    /// Counts that are below their minimum.
    too_few: Vec<String>,
}

impl Report {
    pub fn new(title: &str, functions: &[Function], amount: Amount) -> Self {
        println!("{title:<28} {:>9} {:>9} {:>7}", "inputs", "calls", "differ");
        let unseen = |function: &Function| (*function, [0; NUMBERS]);
        Self {
            started: Instant::now(),
            amount,
            offered: 0,
            section: "",
            functions: functions.iter().map(unseen).collect(),
            inputs: 0,
            calls: 0,
            differ: 0,
            too_few: Vec::new(),
        }
    }

    /// Compares the inputs of a section and prints how many they were.
    pub fn section(&mut self, (name, least, compare): Section) {
        self.section = name;
        let (inputs, calls, differ) = (self.inputs, self.calls, self.differ);
        compare(self);
        let inputs = self.inputs - inputs;
        println!(
            "{name:<28} {inputs:>9} {:>9} {:>7}",
            self.calls - calls,
            self.differ - differ
        );
        self.require("inputs", inputs, least);
    }

    /// Fails the comparison if a count is below its minimum, or in a comparison of some inputs below that
    /// share of it.
    pub fn require(&mut self, what: &str, count: u64, least: u64) {
        let least = self.amount.of(least);
        if count < least {
            let line = format!(
                "{}: {what}: {count}, must be at least {least}",
                self.section
            );
            self.too_few.push(line);
        }
    }

    /// Whether the next input is compared.
    pub fn takes(&mut self) -> bool {
        self.offered += 1;
        self.amount == Amount::All || self.offered.is_multiple_of(THINNED)
    }

    pub fn input(&mut self) {
        self.inputs += 1;
    }

    /// Compares a call's answer and what it left; the expected answer has this number.
    pub fn call<T: PartialEq + Debug>(
        &mut self,
        function: Function,
        number: u32,
        (given, expected): (T, T),
        input: impl FnOnce() -> String,
    ) {
        let mut functions = self.functions.iter_mut();
        let found = functions.find(|(known, _)| known.name == function.name);
        let (_, seen) = found.expect("a function of this report");
        seen[number as usize] += 1;
        self.calls += 1;
        if given == expected {
            return;
        }
        self.differ += 1;
        if self.differ <= SHOWN {
            println!("{} of {}", function.name, input());
            println!("  given    {given:?}");
            println!("  expected {expected:?}");
        }
    }

    /// Prints how often each number was expected. Succeeds if nothing differs and no count is too low.
    pub fn finish(mut self) -> ExitCode {
        self.section = "all sections";
        let least = self.amount.of(SEEN);
        println!("function      numbers expected (0 is accepted; each at least {least} times)");
        for (Function { name, numbers }, seen) in self.functions.clone() {
            let counts = numbers.iter().map(|&number| {
                let times = seen[number as usize];
                self.require(&format!("{name}: {number} expected"), times, SEEN);
                format!("{number}: {times}")
            });
            let counts = counts.collect::<Vec<_>>().join(", ");
            println!("{name:<13} {counts}");
        }
        for line in &self.too_few {
            println!("too few: {line}");
        }
        let seconds = self.started.elapsed().as_secs_f64();
        let (calls, differ) = (self.calls, self.differ);
        println!("{calls} calls compared in {seconds:.1} s, {differ} differ");
        if differ == 0 && self.too_few.is_empty() {
            ExitCode::SUCCESS
        } else {
            ExitCode::FAILURE
        }
    }
}
