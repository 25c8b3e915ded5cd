//! The memory of a run: the caller's buffers, and the stack that its calls use.

use std::{arch::asm, fs, hint::black_box, thread};

use restoration::Run;

use super::{Picture, head, run};

/// The largest picture of the plot.
const LARGEST: Picture = Picture::square(4080);
/// Pictures for which the stack is measured.
const PICTURES: [Picture; 3] = [Picture::square(64), Picture::square(504), LARGEST];
const CALLS: [&str; 7] = [
    "start",
    "band, Gabor-like",
    "band, step 0",
    "band, step 1",
    "band, step 2",
    "advance",
    "result",
];
const START: usize = 0;
const FIRST_PASS: usize = 1;
const ADVANCE: usize = 5;
const RESULT: usize = 6;

/// Bytes of stack that are painted, and bytes next to the painter's frame that are not.
const PAINTED: usize = 1 << 18;
const LEFT_ALONE: usize = 1 << 9;
const PAINT: u8 = 0xA5;
/// The stack of the thread that makes the calls.
const STACK: usize = 1 << 21;

pub fn print() {
    buffers();
    println!();
    let stacks = thread::Builder::new()
        .stack_size(STACK)
        .spawn(|| PICTURES.map(stacks))
        .expect("a thread")
        .join()
        .expect("accepted calls");
    let [small, middle, large] = PICTURES.map(|picture| picture.to_string());
    head(&["stack, bytes", &small, &middle, &large]);
    for (call, name) in CALLS.iter().enumerate() {
        let [small, middle, large] = stacks.map(|stack| stack[call]);
        println!("| {name} | {small} | {middle} | {large} |");
    }
}

/// The caller's buffers for the largest picture: their computed size, and how much the process grows.
fn buffers() {
    let before = resident();
    let mut input = run::input(LARGEST);
    let mut out = run::result_slice(LARGEST);
    input.second.fill(black_box(1.0));
    out.fill(black_box(1.0));
    let made = resident();
    clear_peak();
    run::with_result(&mut input, &mut out);
    let after = peak();
    let sets = input.first.len() + input.second.len();
    let blocks = input.sigmas.len() + input.grids.len() + input.table.len();
    let mib = |samples: usize| 4.0 * samples as f64 / f64::from(1 << 20);
    head(&[&format!("caller's buffers, {LARGEST}"), "MiB"]);
    println!("| both sets | {:.2} |", mib(sets));
    println!("| block sigmas, grids and table | {:.2} |", mib(blocks));
    println!("| the result's slice | {:.2} |", mib(out.len()));
    println!("| together | {:.2} |", mib(sets + blocks + out.len()));
    println!(
        "| measured: the process grew by | {:.2} |",
        (made - before) / 1024.0
    );
    println!(
        "| measured: the run's peak above that | {:.2} |",
        (after - made) / 1024.0
    );
    println!("\nThe record has {} bytes.", size_of::<Run>());
}

/// Resident memory of this process in KiB, now and at its peak.
fn resident() -> f64 {
    status("VmRSS:")
}

fn peak() -> f64 {
    status("VmHWM:")
}

fn clear_peak() {
    fs::write("/proc/self/clear_refs", "5").expect("Linux can clear the peak");
}

fn status(name: &str) -> f64 {
    let text = fs::read_to_string("/proc/self/status").expect("Linux has a status file");
    let line = text.lines().find_map(|line| line.strip_prefix(name));
    let mut words = line.expect("one line per name").split_whitespace();
    words
        .next()
        .and_then(|word| word.parse().ok())
        .expect("a number")
}

/// The most stack that each kind of call of a whole run uses.
fn stacks(picture: Picture) -> [usize; CALLS.len()] {
    let mut input = run::input(picture);
    let mut out = run::result_slice(picture);
    let mut most = [0; CALLS.len()];
    let mut answer = None;
    most[START] = stack_of(|| answer = Some(input.start()));
    let mut run = answer.and_then(|a| a.value().ok()).expect("accepted");
    for pass in 0..run::PASSES as usize {
        for k in 0..picture.height.div_ceil(run.setup.band_height) {
            let sets = (&mut input.first, &mut input.second);
            let used =
                stack_of(|| run = restoration::band(run, &input.sigmas, sets.0, sets.1, k).run);
            most[FIRST_PASS + pass] = used.max(most[FIRST_PASS + pass]);
        }
        most[ADVANCE] = stack_of(|| run = restoration::advance(run).run);
    }
    let mut number = 1;
    most[RESULT] =
        stack_of(|| number = restoration::result(run, &input.first, &input.second, &mut out));
    assert_eq!(number, 0);
    most
}

/// Bytes of stack that a call uses: the stack below is painted, and after the call the lowest byte that
/// was overwritten is searched.
#[inline(never)]
pub fn stack_of(call: impl FnOnce()) -> usize {
    let here: usize;
    // SAFETY: only reads the stack pointer.
    unsafe { asm!("mov {}, rsp", out(reg) here, options(nomem, nostack, preserves_flags)) };
    let lowest = (here - LEFT_ALONE - PAINTED) as *mut u8;
    for at in 0..PAINTED {
        // SAFETY: this thread's stack extends below that, and nothing there is in use.
        unsafe { lowest.add(at).write_volatile(PAINT) };
    }
    call();
    // SAFETY: as above.
    let painted = |at: &usize| unsafe { lowest.add(*at).read_volatile() } == PAINT;
    PAINTED + LEFT_ALONE - (0..PAINTED).take_while(painted).count()
}
