//! A sample of the original's answers as text, for a replay without the original.

mod headers;

use std::collections::{BTreeMap, BTreeSet};

use crate::{
    header::READERS,
    random::Random,
    subject::{Subject, for_each_in},
};

/// Rows for each subject.
const ROWS: usize = 64;
/// About how many cases of each source the rows are chosen from.
const CANDIDATES: usize = 2_000;

const HEAD: &str = "\
# Answers of the original Rust, and the number of the refusal (Specification 3.1) where there is one.
# Made in reference/ by: cargo run --release --offline -p harness -- record
# A row: the subject, its inputs in order, the number, the result's fields in order.
# A header is the count of its bytes and each byte; of a header's row the next bit place is last.
";

pub fn print(subjects: &[&Subject]) {
    print!("{HEAD}");
    for subject in subjects {
        println!();
        for case in chosen(subject) {
            println!("{}", row(subject, &case));
        }
    }
    for reader in &READERS {
        println!();
        for row in headers::rows(reader) {
            println!("{row}");
        }
    }
}

fn row(subject: &Subject, case: &[i128]) -> String {
    let expected = subject.expected(case);
    let mut row = subject.name.to_owned();
    for number in case
        .iter()
        .chain([&i128::from(expected.number)])
        .chain(&expected.fields[..subject.outputs])
    {
        row += &format!(" {number}");
    }
    row
}

/// The named cases, then cases from each class alternately. A class is a number, and whether any field
/// is other than 0.
fn chosen(subject: &Subject) -> Vec<Vec<i128>> {
    let mut chosen: Vec<Vec<i128>> = subject.named.iter().map(|case| case.to_vec()).collect();
    let mut seen: BTreeSet<Vec<i128>> = chosen.iter().cloned().collect();
    let mut random = Random::for_name(&format!("record {}", subject.name));
    let mut classes: BTreeMap<(u32, bool), Vec<Vec<i128>>> = BTreeMap::new();
    for case in candidates(subject, &mut random) {
        // The replay reads numbers of at most this size.
        let fits = case.iter().all(|&n| n.unsigned_abs() <= i64::MAX as u128);
        if fits && seen.insert(case.clone()) {
            let expected = subject.expected(&case);
            let class = (
                expected.number,
                expected.fields.iter().any(|&field| field != 0),
            );
            classes.entry(class).or_default().push(case);
        }
    }
    // Two cases with a result for each case of another class.
    let times = |class: &_| if *class == (0, true) { 2 } else { 1 };
    fill(&mut chosen, classes, times, &mut random);
    chosen
}

/// Adds cases of each class alternately, `times` at a time, until there are enough.
fn fill<K: Ord, C>(
    chosen: &mut Vec<C>,
    mut classes: BTreeMap<K, Vec<C>>,
    times: impl Fn(&K) -> usize,
    random: &mut Random,
) {
    while chosen.len() < ROWS {
        for (class, cases) in &mut classes {
            for _ in 0..times(class).min(cases.len()) {
                let at = random.within(0, cases.len() as i128 - 1) as usize;
                chosen.push(cases.swap_remove(at));
            }
        }
    }
    chosen.truncate(ROWS);
}

/// Cases near zero, at the limits and random ones.
fn candidates(subject: &Subject, random: &mut Random) -> Vec<Vec<i128>> {
    let mut cases = Vec::new();
    for (_, ranges) in subject.near {
        thin(&mut cases, random, |visit| for_each_in(ranges, visit));
    }
    thin(&mut cases, random, |visit| subject.for_each_limit(visit));
    cases.extend((0..CANDIDATES).map(|_| subject.draw(random)));
    cases
}

/// Adds some cases of a source.
fn thin(cases: &mut Vec<Vec<i128>>, random: &mut Random, source: impl Fn(&mut dyn FnMut(&[i128]))) {
    let mut count = 0;
    source(&mut |_| count += 1);
    let stride = count / CANDIDATES as i128 + 1;
    source(&mut |case| {
        if random.within(1, stride) == 1 {
            cases.push(case.to_vec());
        }
    });
}
