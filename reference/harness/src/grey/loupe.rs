//! The loupe on grey pictures: rectangles beside whole runs of the definition. And calls with damaged inputs, for
//! pictures of either number of planes: the number, and every buffer.

use core::fmt;

use restoration::{GREY_PLANES, LoupeSetup, PLANES, Region};

use super::runs::passes;
use crate::{
    bits,
    convert::{original, region, wide, wide_frame},
    expected::loupe as rule,
    loupe,
    picture::{agree, any_planes, samples},
    random::Random,
    report::{Amount, Report, Row},
    runs::{self, Input, damage},
    sigma,
};

/// Calls for each picture, and all of them before `--scale`.
const CALLS: u64 = 20;
const DRAWS: u64 = 80_000;
/// Sides of pictures.
const SIDES: u32 = 40;

const NAME: &str = "grey loupe";
/// The numbers that `loupe_smooth` can answer.
const NUMBERS: [u32; 7] = [0, 4, 6, 7, 8, 9, 15];
/// Both regions are moved by whole blocks, out of the grids, or off the blocks.
const MOVES: [i32; 9] = [-8, 8, 16, 40, 1_024, 16_384, -3, 1, 4];

pub fn compare(amount: Amount, report: &mut Report) {
    loupe::accepted(NAME, GREY_PLANES, amount, report);
    let mut random = Random::for_name("grey loupe, refusals");
    let mut row = Row::new(NAME, "refusals");
    let mut picture = 0;
    while row.draws(DRAWS / CALLS, amount) {
        let valid = Call::draw(picture, &mut random);
        picture += 1;
        for _ in 0..CALLS {
            let mut call = valid.clone();
            call.damage(&mut random);
            call.compare(&mut random, &mut row);
        }
    }
    row.require(&NUMBERS, amount);
    row.require_planes(amount);
    report.add(row);
}

/// The arguments of a call; those of the run over the widened rectangle are a picture of their own.
#[derive(Clone)]
struct Call {
    setup: LoupeSetup,
    own: Input,
    out: Vec<f32>,
}

impl fmt::Debug for Call {
    fn fmt(&self, f: &mut fmt::Formatter) -> fmt::Result {
        f.debug_struct("Call")
            .field("setup", &self.setup)
            .field("own", &self.own)
            .field("out", &self.out.len())
            .finish()
    }
}

impl Call {
    /// Arguments that are accepted.
    fn draw(n: u64, random: &mut Random) -> Self {
        let planes = random.one_of(&[GREY_PLANES, GREY_PLANES, PLANES]);
        let whole = runs::with_passes(passes(n), SIDES, random).of_planes(planes);
        let setup = LoupeSetup {
            whole: whole.setup.filter,
            wanted: loupe::wanted(whole.setup.filter, random),
            planes,
            settings: whole.setup.settings,
            ..LoupeSetup::DEFAULT
        };
        let widened = setup_rule(setup).widened();
        let own = loupe::cut(&whole, in_32_bits(widened), random);
        let out = samples(setup.wanted.samples_in(planes), random);
        Self { setup, own, out }
    }

    /// In one to three places. Half the time lengths follow the new setup, so that its other faults are reached.
    fn damage(&mut self, random: &mut Random) {
        for _ in 0..random.within(1, 3) {
            self.damage_once(random);
        }
        if random.once_in(2) {
            self.refit();
        }
    }

    fn damage_once(&mut self, random: &mut Random) {
        let Self { setup, own, out } = self;
        match random.within(0, 12) {
            0 | 1 => setup.planes = any_planes(random),
            2 => damage::region(&mut setup.whole, random),
            3 => damage::region(&mut setup.wanted, random),
            4 => outside(setup, random),
            5 => damage::passes(&mut setup.settings, random),
            6 => sigma::damage_frame(&mut own.frame, random),
            7 => sigma::damage_table(&mut own.table, random),
            8 => damage::narrow(own, random),
            9 => moved(setup, random),
            10 => damage::of_other_planes([&mut own.first, &mut own.second], random),
            11 => damage::resize(out, random),
            _ => {
                let slices = [&mut own.first, &mut own.second, &mut own.sigmas];
                let at = random.within(0, 2) as usize;
                damage::resize(slices.into_iter().nth(at).expect("one of three"), random);
            }
        }
    }

    fn refit(&mut self) {
        let rule = setup_rule(self.setup);
        let set = rule.run().map(|run| run.set());
        let own = &mut self.own;
        let lengths = [
            (&mut own.first, set),
            (&mut own.second, set),
            (&mut own.sigmas, rule.sigmas()),
            (&mut self.out, Some(rule.out())),
        ];
        for (slice, length) in lengths {
            if let Some(length) = length.filter(|n| (0..=damage::MOST_SAMPLES).contains(n)) {
                slice.resize(length as usize, 1.0);
            }
        }
    }

    fn rule(&self) -> rule::Smooth<'_> {
        rule::Smooth {
            setup: setup_rule(self.setup),
            frame: wide_frame(self.own.frame),
            table: &self.own.table,
            grids: self.own.grids.len(),
            sets: [self.own.first.len(), self.own.second.len()],
            sigmas: self.own.sigmas.len(),
            out: self.out.len(),
        }
    }

    /// Both calls. A refused one leaves every bit, NaNs included.
    fn compare(mut self, random: &mut Random, row: &mut Row) {
        self.compare_widened(row);
        let number = rule::smooth(self.rule());
        row.count(number);
        row.of_planes(self.setup.planes, number);
        if number != 0 {
            let own = &mut self.own;
            let sets = [&mut own.first, &mut own.second];
            for buffer in sets.into_iter().chain([&mut own.sigmas, &mut self.out]) {
                bits::sprinkle(buffer, random);
            }
        }
        let before = self.clone();
        let given = loupe::smooth(self.setup, &mut self.own, &mut self.out);
        if given != number {
            return row.differs(&before, &given, &number);
        }
        let kept = if number == 0 {
            before.defined().as_deref().is_some_and(|out| {
                self.out.len() == out.len() && self.out.iter().zip(out).all(|(a, b)| agree(*a, *b))
            })
        } else {
            self.same_bits(&before)
        };
        let read =
            self.own.table == before.own.table && bits::same(&self.own.grids, &before.own.grids);
        if !kept || !read {
            row.differs(&before, &"other buffers", &number);
        }
    }

    fn compare_widened(&self, row: &mut Row) {
        let rule = setup_rule(self.setup);
        let number = rule::widened(rule);
        let answer = restoration::loupe_widened(self.setup);
        let region = if number == 0 {
            in_32_bits(rule.widened())
        } else {
            Region::with_size(0, 0)
        };
        if (answer.number, answer.region) != (number, region) {
            row.differs(&self.setup, &answer, &(number, region));
        }
    }

    /// The wanted samples of an accepted call by the definition.
    fn defined(&self) -> Option<Vec<f32>> {
        let run = setup_rule(self.setup).run()?;
        let widened = in_32_bits(run.filter);
        let mut own = self.own.clone();
        own.setup.image = widened;
        own.setup.filter = widened;
        own.setup.planes = self.setup.planes;
        own.setup.settings = self.setup.settings;
        own.setup.preserve_outside = 0;
        let planes = self.setup.planes;
        let wanted = self.setup.wanted;
        Some(loupe::samples_in(planes, widened, &own.defined(), wanted))
    }

    fn same_bits(&self, other: &Self) -> bool {
        bits::same(&self.own.first, &other.own.first)
            && bits::same(&self.own.second, &other.own.second)
            && bits::same(&self.own.sigmas, &other.own.sigmas)
            && bits::same(&self.out, &other.out)
    }
}

/// The wanted rectangle is empty, or reaches past an edge of the whole by a sample.
fn outside(setup: &mut LoupeSetup, random: &mut Random) {
    let (whole, wanted) = (setup.whole, &mut setup.wanted);
    match random.within(0, 5) {
        0 => wanted.width = 0,
        1 => wanted.height = 0,
        2 => wanted.left = whole.left.wrapping_sub(1),
        3 => wanted.top = whole.top.wrapping_sub(1),
        4 => wanted.width = whole.width.wrapping_add(1),
        _ => wanted.height = whole.height.wrapping_add(1),
    }
}

fn moved(setup: &mut LoupeSetup, random: &mut Random) {
    let [right, down] = [(); 2].map(|()| random.one_of(&MOVES) * random.within(0, 1) as i32);
    for r in [&mut setup.whole, &mut setup.wanted] {
        r.left = r.left.wrapping_add(right);
        r.top = r.top.wrapping_add(down);
    }
}

fn setup_rule(s: LoupeSetup) -> rule::Loupe {
    rule::Loupe {
        whole: wide(original(s.whole)),
        wanted: wide(original(s.wanted)),
        planes: s.planes,
        gabor: s.settings.gabor.enabled,
        iterations: s.settings.epf.iters.into(),
    }
}

/// A region within the limits, as the library has it.
fn in_32_bits(r: crate::expected::Region) -> Region {
    region(oracle::Region {
        left: r.left as i32,
        top: r.top as i32,
        width: r.width as u32,
        height: r.height as u32,
    })
}
