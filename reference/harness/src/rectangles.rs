//! Rectangles cut from larger pictures. Each is run by itself, with its own image region, band height,
//! result, frame and grids. Its samples at least the margin away from each cut edge must be the larger
//! picture's, bit for bit. With a margin of one sample less they differ. After each call of a list the
//! record's number of bands left is compared with a count of its flags.

mod regroup;

use restoration::{BLOCK, CHANNELS, MAX_ITERS, PLANES, Region, Run, Settings};

use crate::{
    bits,
    epf::textured,
    picture::{self, agree, samples},
    random::Random,
    report::{Amount, Report, Row},
    runs::{self, Input, Passes, State, counted, place, setup_rule},
    sigma::sigma,
};

/// Rectangles, before `--scale`.
const RECTANGLES: u64 = 10_000;
/// Sides of larger pictures.
const SIDES: u32 = 64;
/// Pictures that are tried until a sample differs at each edge with a margin of one sample less.
const TRIES: u64 = 1_000;

const NAME: &str = "rectangles";
const EDGES: [&str; 4] = ["left", "top", "right", "bottom"];

pub fn compare(amount: Amount, report: &mut Report) {
    let mut random = Random::for_name(NAME);
    let mut row = Row::new(NAME, "random");
    let mut left = Row::new("bands left", "lists of calls");
    let mut compared = 0;
    while row.draws(RECTANGLES, amount) {
        let passes = runs::passes(&mut random);
        let pair = Pair::draw(passes, &mut random);
        compared += pair.compare(&mut random, &mut row, &mut left);
    }
    report.add(row);
    println!("{NAME}: {compared} samples at and beyond the margin");
    let mut row = Row::new(NAME, "a sample less");
    for combination in 1..8 {
        let passes = Passes {
            gabor: combination % 2 == 1,
            iterations: combination / 2,
        };
        tight(passes, &mut random, &mut row, &mut left);
    }
    report.add(row);
    report.add(left);
}

/// Two pictures that agree in the smaller filter region.
struct Pair {
    larger: Input,
    smaller: Input,
    margin: u32,
}

/// Samples between a position in the smaller filter region and each of its edges that is cut.
type Between = [Option<u32>; 4];

impl Pair {
    /// Pictures with at least one sample to compare.
    fn draw(passes: Passes, random: &mut Random) -> Self {
        loop {
            let larger = runs::with_passes(passes, SIDES, random);
            let pair = Self::cut(larger, random);
            if pair.places().any(|at| pair.clear(pair.between(at))) {
                return pair;
            }
        }
    }

    fn cut(larger: Input, random: &mut Random) -> Self {
        let filter = part(&larger, random);
        let smaller = cut_picture(&larger, filter, random);
        let margin = setup_rule(&larger.setup).margin() as u32;
        Self {
            larger,
            smaller,
            margin,
        }
    }

    /// Positions in the smaller filter region, counted from its left and top.
    fn places(&self) -> impl Iterator<Item = (u32, u32)> + use<> {
        let Region { width, height, .. } = self.smaller.setup.filter;
        (0..height).flat_map(move |y| (0..width).map(move |x| (x, y)))
    }

    fn between(&self, (x, y): (u32, u32)) -> Between {
        let small = self.smaller.setup.filter;
        let large = self.larger.setup.filter;
        let end = |corner: i32, side: u32| i64::from(corner) + i64::from(side);
        let cuts = [
            small.left != large.left,
            small.top != large.top,
            end(small.left, small.width) != end(large.left, large.width),
            end(small.top, small.height) != end(large.top, large.height),
        ];
        let between = [x, y, small.width - 1 - x, small.height - 1 - y];
        core::array::from_fn(|edge| cuts[edge].then_some(between[edge]))
    }

    /// The position is at least the margin away from each cut edge.
    fn clear(&self, between: Between) -> bool {
        between.into_iter().flatten().all(|n| n >= self.margin)
    }

    /// The position is one sample less than the margin away from this edge, and at least the margin away
    /// from the others.
    fn short_at(&self, edge: usize, between: Between) -> bool {
        let mut others = between;
        others[edge] = None;
        between[edge].is_some_and(|n| n + 1 == self.margin) && self.clear(others)
    }

    /// Both results, each by its own list of calls.
    fn results(&self, random: &mut Random, left: &mut Row) -> Result<[Vec<f32>; 2], Stopped> {
        let smaller = finished(&self.smaller, random, left)?;
        Ok([smaller, finished(&self.larger, random, left)?])
    }

    /// The samples of both at a position, one pair per plane.
    fn samples(&self, results: &[Vec<f32>; 2], (x, y): (u32, u32)) -> [[f32; 2]; CHANNELS] {
        let corner = self.smaller.setup.filter;
        core::array::from_fn(|c| {
            let at = |input: &Input, result: &[f32]| {
                let part = picture::result(&place(&input.setup));
                let column = (corner.left - part.left) as u32 + x;
                let row = (corner.top - part.top) as u32 + y;
                let (width, height) = (part.width as usize, part.height as usize);
                result[(c * height + row as usize) * width + column as usize]
            };
            [
                at(&self.smaller, &results[0]),
                at(&self.larger, &results[1]),
            ]
        })
    }

    /// Compares both results and answers how many samples were compared.
    fn compare(&self, random: &mut Random, row: &mut Row, left: &mut Row) -> u64 {
        row.count(0);
        let case = (&self.smaller, &self.larger);
        row.of_groups(self.larger.is_mixed() || self.smaller.is_mixed());
        let answered = restoration::margin(self.smaller.setup.settings);
        if answered.value() != Ok(self.margin) {
            row.differs(&case, &answered, &self.margin);
        }
        let results = match self.results(random, left) {
            Ok(results) => results,
            Err(stopped) => {
                row.differs(&case, &stopped, &0);
                return 0;
            }
        };
        let mut compared = 0;
        for at in self.places().filter(|&at| self.clear(self.between(at))) {
            compared += CHANNELS as u64;
            let samples = self.samples(&results, at);
            if let Some([small, large]) = samples.into_iter().find(|[a, b]| !agree(*a, *b)) {
                row.differs(&(case, at), &small, &large);
                return compared;
            }
        }
        compared
    }

    /// The edges at which some sample differs with a margin of one sample less.
    fn wrong_edges(&self, random: &mut Random, left: &mut Row) -> Result<[bool; 4], Stopped> {
        let results = self.results(random, left)?;
        let differs = |at| {
            let samples = self.samples(&results, at);
            samples.into_iter().any(|[a, b]| !agree(a, b))
        };
        Ok(core::array::from_fn(|edge| {
            let mut short = self
                .places()
                .filter(|&at| self.short_at(edge, self.between(at)));
            short.any(differs)
        }))
    }
}

/// Searches, for each edge, a picture in which a margin of one sample less is too small.
fn tight(passes: Passes, random: &mut Random, row: &mut Row, left: &mut Row) {
    let mut found = [false; 4];
    for _ in 0..TRIES {
        let mut larger = runs::with_passes(passes, SIDES, random);
        let modular = larger.setup.settings.epf.sigma_for_modular;
        larger.setup.settings = runs::defaults(passes);
        larger.setup.settings.epf.sigma_for_modular = modular;
        let pair = Pair::cut(larger, random);
        match pair.wrong_edges(random, left) {
            Ok(wrong) => found = core::array::from_fn(|edge| found[edge] || wrong[edge]),
            Err(stopped) => row.differs(&(&pair.smaller, &pair.larger), &stopped, &0),
        }
        if found == [true; 4] {
            break;
        }
    }
    for (edge, found) in EDGES.into_iter().zip(found) {
        row.count(0);
        if !found {
            row.differs(&(passes, edge), &"no picture", &"one that needs the margin");
        }
    }
}

/// A part of the filter region, on blocks if the edge filter runs.
fn part(larger: &Input, random: &mut Random) -> Region {
    let step = if larger.setup.settings.epf.iters > 0 {
        BLOCK
    } else {
        1
    };
    runs::part(larger.setup.filter, step, random, |room, random| {
        if random.once_in(4) {
            room
        } else {
            random.within(1, room.into()) as u32
        }
    })
}

/// A picture that agrees with a larger one in its own filter region.
fn cut_picture(larger: &Input, filter: Region, random: &mut Random) -> Input {
    let mut setup = larger.setup;
    setup.filter = filter;
    setup.image = runs::around(filter, SIDES, random);
    setup.preserve_outside = random.once_in(2).into();
    let part = if setup.preserve_outside == 1 {
        setup.image
    } else {
        filter
    };
    setup.band_height = runs::band_height(part.height, random);
    setup.settings = agreeing(setup.settings, random);
    let groups = regroup::groups(larger, filter, &mut setup.settings, random);
    let rule = setup_rule(&setup);
    let mut first = textured(rule.set() as usize, random);
    let here = picture::runs(
        PLANES,
        place(&setup).image,
        place(&setup).filter,
        (0, filter.height),
    );
    let from = place(&larger.setup).image;
    let there = picture::runs(PLANES, from, place(&setup).filter, (0, filter.height));
    for (here, there) in here.zip(there) {
        for (sample, &agreed) in first[here].iter_mut().zip(&larger.first[there]) {
            *sample = alike(agreed, random);
        }
    }
    Input {
        setup,
        frame: groups.frame,
        table: groups.table,
        grids: groups.grids,
        second: samples(first.len(), random),
        first,
        sigmas: samples(rule.sigmas() as usize, random),
    }
}

/// The same sample, or another NaN for a NaN.
fn alike(sample: f32, random: &mut Random) -> f32 {
    if sample.is_nan() {
        f32::from_bits(sample.to_bits() ^ (random.next() as u32 & 0x803F_FFFF) | 1)
    } else {
        sample
    }
}

/// Other settings that agree in everything that the passes read.
fn agreeing(settings: Settings, random: &mut Random) -> Settings {
    let passes = Passes {
        gabor: settings.gabor.enabled == 1,
        iterations: settings.epf.iters,
    };
    let other = runs::settings(passes, sigma(random), random);
    let mut own = other;
    if passes.gabor {
        own.gabor.weights = settings.gabor.weights;
    }
    if passes.iterations > 0 {
        own.epf.channel_scale = settings.epf.channel_scale;
        own.epf.sigma.border_sad_mul = settings.epf.sigma.border_sad_mul;
    }
    if passes.iterations == MAX_ITERS {
        own.epf.sigma.pass0_sigma_scale = settings.epf.sigma.pass0_sigma_scale;
    }
    if passes.iterations >= 2 {
        own.epf.sigma.pass2_sigma_scale = settings.epf.sigma.pass2_sigma_scale;
    }
    own
}

/// Why there is no result, and the last call's number.
type Stopped = (&'static str, u32);

/// The result of a random list of calls. Refused ones are interleaved and must leave every bit.
fn finished(input: &Input, random: &mut Random, left: &mut Row) -> Result<Vec<f32>, Stopped> {
    let mut copy = input.clone();
    let answer = copy.start();
    if answer.number != 0 {
        return Err(("start was refused", answer.number));
    }
    compare_left(&answer.run, 0, left);
    let mut state = State::new(answer.run, &copy);
    let mut kept = state.clone();
    let rule = setup_rule(&copy.setup);
    let mut out = samples(rule.out() as usize, random);
    bits::sprinkle(&mut out, random);
    let out_before = out.clone();
    let mut number = 0;
    // In this many calls each band is drawn many times.
    for _ in 0..1_000 * (1 + rule.bands()) {
        let call = random.within(0, 1 + rule.bands());
        number = match call {
            0 => advance(&mut state),
            1 => restoration::result(state.run, &state.first, &state.second, &mut out),
            _ => any_band(&mut state, rule.bands(), random),
        };
        compare_left(&state.run, number, left);
        if number != 0 {
            if !state.same_bits(&kept) || !bits::same(&out, &out_before) {
                return Err(("a refused call changed something", number));
            }
        } else if call == 1 {
            return Ok(out);
        } else {
            kept.clone_from(&state);
        }
    }
    Err(("no result after many calls", number))
}

/// Compares the number of bands left after a call with a count of the flags.
fn compare_left(run: &Run, number: u32, left: &mut Row) {
    left.count(number);
    let expected = counted(*run).bands_left;
    if run.bands_left != expected {
        left.differs(run, &run.bands_left, &expected);
    }
}

fn advance(state: &mut State) -> u32 {
    let answer = restoration::advance(state.run);
    state.run = answer.run;
    answer.number
}

/// Any band, or the one past the last.
fn any_band(state: &mut State, bands: i128, random: &mut Random) -> u32 {
    let k = random.within(0, bands) as u32;
    let (first, second) = (&mut state.first, &mut state.second);
    let answer = restoration::band(state.run, &state.sigmas, first, second, k);
    state.run = answer.run;
    answer.number
}
