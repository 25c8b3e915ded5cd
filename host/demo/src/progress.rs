//! A progress bar on standard error, where that is a terminal, for work that takes a while.

use std::{
    io::{self, IsTerminal, Stderr, Write},
    time::{Duration, Instant},
};

use restoration::Progress;

/// Work that takes less shows no bar.
const SHORT: Duration = Duration::from_millis(200);
/// The shortest time between two drawings.
const BETWEEN: Duration = Duration::from_millis(100);
/// Characters between the brackets.
const CELLS: u32 = 30;

/// One line that is drawn over itself while work goes on, and erased when this is dropped. All lines
/// of a run are equally long, so no terminal needs an escape sequence.
pub struct Bar<W: Write> {
    /// `None` draws nothing.
    terminal: Option<W>,
    /// Before this nothing is drawn.
    due: Instant,
    /// Columns of the line that is on the terminal.
    drawn: usize,
}

impl Bar<Stderr> {
    /// For work that begins now.
    pub fn on_stderr() -> Self {
        let stderr = io::stderr();
        let terminal = stderr.is_terminal().then_some(stderr);
        Self::new(terminal, Instant::now())
    }

    pub fn show(&mut self, progress: Progress) {
        self.show_at(Instant::now(), progress);
    }
}

impl<W: Write> Bar<W> {
    fn new(terminal: Option<W>, began: Instant) -> Self {
        Self {
            terminal,
            due: began + SHORT,
            drawn: 0,
        }
    }

    fn show_at(&mut self, now: Instant, progress: Progress) {
        if now < self.due {
            return;
        }
        let line = line(progress);
        self.due = now + BETWEEN;
        self.drawn = line.len();
        self.write(&format!("\r{line}"));
    }

    /// A terminal that is gone is no error.
    fn write(&mut self, text: &str) {
        if let Some(terminal) = &mut self.terminal {
            let _ = terminal.write_all(text.as_bytes());
            let _ = terminal.flush();
        }
    }
}

impl<W: Write> Drop for Bar<W> {
    fn drop(&mut self) {
        if self.drawn > 0 {
            self.write(&format!("\r{:drawn$}\r", "", drawn = self.drawn));
        }
    }
}

/// What is drawn: the pass, the bar, and the share of all bands that are done, rounded down.
fn line(progress: Progress) -> String {
    let pass = progress.passes.min(progress.passes_over + 1);
    let (over, all) = (progress.bands_over(), progress.bands_in_all());
    // Without bands there is nothing to do.
    let share = |of: u32| (of * over).checked_div(all).unwrap_or(of);
    let full = "#".repeat(share(CELLS) as usize);
    format!(
        "pass {pass} of {}  [{full:-<cells$}]  {:>3} %",
        progress.passes,
        share(100),
        cells = CELLS as usize,
    )
}

#[cfg(test)]
mod tests {
    use super::*;

    const COLUMNS: usize = 52;

    /// A run of four passes of eight bands.
    fn of_four(passes_over: u32, bands_left: u32) -> Progress {
        Progress {
            passes_over,
            passes: 4,
            bands_left,
            bands: 8,
        }
    }

    #[test]
    fn the_line_has_the_pass_a_bar_and_a_percentage() {
        let table = [
            (0, 8, "pass 1 of 4  [------------------------------]    0 %"),
            (0, 7, "pass 1 of 4  [------------------------------]    3 %"),
            (1, 4, "pass 2 of 4  [###########-------------------]   37 %"),
            (2, 0, "pass 3 of 4  [######################--------]   75 %"),
            (3, 8, "pass 4 of 4  [######################--------]   75 %"),
            (3, 1, "pass 4 of 4  [#############################-]   96 %"),
            (4, 0, "pass 4 of 4  [##############################]  100 %"),
        ];
        for (passes_over, bands_left, drawn) in table {
            assert_eq!(line(of_four(passes_over, bands_left)), drawn);
        }
    }

    #[test]
    fn without_passes_all_is_done() {
        let none = Progress {
            passes: 0,
            ..of_four(0, 0)
        };
        let drawn = "pass 0 of 0  [##############################]  100 %";
        assert_eq!(line(none), drawn);
    }

    /// The lines of a whole run of four passes, band by band.
    fn lines(bands: u32) -> impl Iterator<Item = String> {
        (0..=4 * bands).map(move |at| {
            let passes_over = at / bands;
            let left = if passes_over < 4 {
                bands - at % bands
            } else {
                0
            };
            line(Progress {
                bands,
                ..of_four(passes_over, left)
            })
        })
    }

    /// Each is drawn over the one before it, and spaces over the last one.
    #[test]
    fn all_lines_are_equally_long() {
        for line in (1..=restoration::MAX_BANDS as u32).flat_map(lines) {
            assert_eq!(line.len(), COLUMNS, "{line}");
        }
    }

    #[test]
    fn only_the_last_line_is_full() {
        for bands in 1..=restoration::MAX_BANDS as u32 {
            let full = lines(bands).position(|line| line.ends_with(" 100 %"));
            assert_eq!(full, Some(4 * bands as usize));
        }
    }

    /// What a bar writes if it is told of a pass at each of these milliseconds after its work began.
    fn written(milliseconds: &[u64]) -> String {
        let (mut terminal, began) = (Vec::new(), Instant::now());
        let mut bar = Bar::new(Some(&mut terminal), began);
        for (pass, at) in (0..).zip(milliseconds) {
            bar.show_at(began + Duration::from_millis(*at), of_four(pass, 8));
        }
        drop(bar);
        String::from_utf8(terminal).unwrap()
    }

    #[test]
    fn short_work_draws_nothing() {
        assert_eq!(written(&[]), "");
        assert_eq!(written(&[0, 1, 199]), "");
    }

    #[test]
    fn long_work_is_drawn_ten_times_a_second_and_erased() {
        let drawn = |passes: &[u32]| -> String {
            let lines = passes.iter().map(|&pass| line(of_four(pass, 8)));
            let lines: String = lines.map(|line| format!("\r{line}")).collect();
            format!("{lines}\r{}\r", " ".repeat(COLUMNS))
        };
        assert_eq!(written(&[200]), drawn(&[0]));
        assert_eq!(written(&[199, 250, 349, 350]), drawn(&[1, 3]));
        assert_eq!(written(&[900, 1000, 1099, 1100]), drawn(&[0, 1, 3]));
    }
}
