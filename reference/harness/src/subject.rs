//! A function that is compared, and its cases.

use crate::{
    kinds::{Draw, Kind},
    random::Random,
    report::{Amount, Report, Row},
};

/// The most cases in which all limits are combined.
const MOST_CROSSED: usize = 10_000_000;

/// A number and the fields of the result in order; unused ones are 0.
#[derive(Debug, Clone, Copy, PartialEq, Eq)]
pub struct Answer {
    pub number: u32,
    pub fields: [i128; 7],
}

impl Answer {
    pub fn refused(number: u32) -> Self {
        Self {
            number,
            fields: [0; 7],
        }
    }

    pub fn new(number: u32, given: &[i128]) -> Self {
        let mut fields = [0; 7];
        fields[..given.len()].copy_from_slice(given);
        Self { number, fields }
    }
}

/// A named range of inputs: the smallest and largest number of each.
pub type Near = (&'static str, &'static [(i128, i128)]);

pub struct Subject {
    pub name: &'static str,
    /// The kind of each input.
    pub inputs: &'static [&'static Kind],
    /// How many fields the result has.
    pub outputs: usize,
    /// The numbers that the function can answer.
    pub numbers: &'static [u32],
    /// The proved function.
    pub ours: fn(&[i128]) -> Answer,
    /// The specification's rule.
    pub rule: fn(&[i128]) -> Answer,
    /// The original; called only if the rule accepts the inputs.
    pub original: fn(&[i128]) -> Answer,
    /// Ranges of which every case is compared.
    pub near: &'static [Near],
    /// Cases that come first in a record.
    pub named: &'static [&'static [i128]],
}

impl Subject {
    /// The expected answer: the rule's if it refuses the inputs, else the original's.
    pub fn expected(&self, case: &[i128]) -> Answer {
        let rule = (self.rule)(case);
        if rule.number == 0 {
            (self.original)(case)
        } else {
            rule
        }
    }

    pub fn compare(&self, random_cases: u64, amount: Amount, report: &mut Report) {
        for &(label, ranges) in self.near {
            let mut row = Row::new(self.name, label);
            for_each_in(ranges, &mut |case| self.check_some(case, amount, &mut row));
            report.add(row);
        }
        let mut row = Row::new(self.name, "at the limits");
        self.for_each_limit(&mut |case| self.check_some(case, amount, &mut row));
        report.add(row);
        let mut row = Row::new(self.name, "random");
        let mut random = Random::for_name(self.name);
        while row.draws(random_cases, amount) {
            self.check(&self.draw(&mut random), &mut row);
        }
        row.require(self.numbers, amount);
        report.add(row);
    }

    fn check_some(&self, case: &[i128], amount: Amount, row: &mut Row) {
        if row.takes(amount) {
            self.check(case, row);
        }
    }

    fn check(&self, case: &[i128], row: &mut Row) {
        let rule = (self.rule)(case);
        let expected = self.expected(case);
        let ours = (self.ours)(case);
        row.count(expected.number);
        if ours != expected {
            row.differs(&case, &ours, &expected);
        } else if expected != rule {
            row.differs(&case, &expected, &rule);
        }
    }

    /// A random case: small, close, in range, some inputs at limits, or some anywhere.
    pub fn draw(&self, random: &mut Random) -> Vec<i128> {
        let how = random.one_of(&[
            Draw::Small,
            Draw::Close,
            Draw::Valid,
            Draw::Limits,
            Draw::Any,
        ]);
        self.inputs
            .iter()
            .map(|kind| kind.draw(how, random))
            .collect()
    }

    /// All combinations of limits; if there are too many, those of the main ones, and pairs of all.
    pub fn for_each_limit(&self, visit: &mut dyn FnMut(&[i128])) {
        let edges: Vec<Vec<i128>> = self.inputs.iter().map(|kind| kind.edges()).collect();
        let edges: Vec<&[i128]> = edges.iter().map(Vec::as_slice).collect();
        if edges.iter().map(|list| list.len()).product::<usize>() <= MOST_CROSSED {
            for_each_of(&edges, visit);
            return;
        }
        let core: Vec<&[i128]> = self.inputs.iter().map(|kind| kind.core).collect();
        for_each_of(&core, visit);
        let plain: &[i128] = &[1];
        for i in 0..edges.len() {
            for j in i + 1..edges.len() {
                let mut lists = vec![plain; edges.len()];
                lists[i] = edges[i];
                lists[j] = edges[j];
                for_each_of(&lists, visit);
            }
        }
    }
}

/// Every case with each input in its range.
pub fn for_each_in(ranges: &[(i128, i128)], visit: &mut dyn FnMut(&[i128])) {
    let lists: Vec<Vec<i128>> = ranges
        .iter()
        .map(|&(least, most)| (least..=most).collect())
        .collect();
    let lists: Vec<&[i128]> = lists.iter().map(Vec::as_slice).collect();
    for_each_of(&lists, visit);
}

/// Every case with each input from its list.
fn for_each_of(lists: &[&[i128]], visit: &mut dyn FnMut(&[i128])) {
    let mut places = vec![0; lists.len()];
    let mut case: Vec<i128> = lists.iter().map(|list| list[0]).collect();
    loop {
        visit(&case);
        // The next case: the last input with a number left takes it, and those after it start again.
        let Some(turn) = (0..lists.len()).rfind(|&i| places[i] + 1 < lists[i].len()) else {
            return;
        };
        places[turn] += 1;
        places[turn + 1..].fill(0);
        for i in turn..lists.len() {
            case[i] = lists[i][places[i]];
        }
    }
}
