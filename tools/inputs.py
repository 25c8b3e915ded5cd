"""Rattle functions that inputs of must-fail edits may use, by the crate whose types they make; tools/mutants adds those whose crate a program has.

They stand here since a file of Rattle belongs to a crate, and these are proved by nothing.
"""

# What a program tells a false input by: a division by zero in this function.
EXPECT = """
fn expect(ok: bool) {
    let one: u8 = 1;
    let _quotient = one / (ok as u8);
}
"""

# Whether two lists of samples are the same, bit by bit.
SAMPLES = """
fn same(a: &[f32], b: &[f32]) -> bool {
    a.len() == b.len() && a.iter().zip(b.iter()).all(|(x, y)| x.to_bits() == y.to_bits())
}
"""

SHARED = {
    "": SAMPLES,
    # Weights of 0, so that the Gabor-like filter changes nothing, and no default among the edge filter's settings.
    "run_passes": """
fn settings(gabor: u32, iters: u32) -> run_passes::Settings {
    let gabor = run_passes::GaborSettings { enabled: gabor, weights: [[0.0; 2]; 3] };
    let sigma = header_epf_sigma::EpfSigma { quant_mul: 0.25, pass0_sigma_scale: 0.75, pass2_sigma_scale: 6.0, border_sad_mul: 0.5 };
    let epf = run_passes::EpfSettings { iters, channel_scale: [1.0; 3], sigma, sigma_for_modular: 1.0 };
    run_passes::Settings { gabor, epf }
}
""",
    "region": """
fn region_of(left: i32, top: i32, width: u32, height: u32) -> region::Region {
    region::Region { left, top, width, height }
}
""",
    "run_setup": """
fn setup_of(image: region::Region, filter: region::Region, full: u32, settings: run_passes::Settings, band_height: u32) -> run_setup::Setup {
    run_setup::Setup { image, filter, planes: 3, preserve_outside: full, settings, band_height }
}
""",
    "run_record": """
fn run_at(setup: run_setup::Setup, pass: u32) -> run_record::Run {
    let bands_left = if pass == setup.settings.pass_count() { 0 } else { setup.band_count() };
    run_record::Run { setup, pass, bands_left, done: [0; run_setup::MAX_BANDS] }
}

fn with_done(run: run_record::Run, k: usize) -> run_record::Run {
    let mut r = run;
    r.done[k] = 1;
    r.bands_left -= 1;
    r
}
""",
}
