//! What the port is to attain, and whether a run shows it.

use crate::table::{Times, Who};

#[derive(Clone, Copy)]
pub enum Mark {
    /// At least so many times as fast as the Rust.
    AtLeast(f64),
    /// At most so much of libavcodec's time.
    AtMost(f64),
}

impl Mark {
    fn text(self) -> String {
        match self {
            Self::AtLeast(bound) => format!("at least {bound:.2} times as fast as the Rust"),
            Self::AtMost(bound) => format!("at most {bound:.2} of libavcodec's time"),
        }
    }

    fn measured(self, times: &Times) -> Option<f64> {
        times.ratio(match self {
            Self::AtLeast(_) => Who::Rust,
            Self::AtMost(_) => Who::Avcodec,
        })
    }

    fn missed_by(self, measured: f64) -> Option<f64> {
        let missing = match self {
            Self::AtLeast(bound) => bound - measured,
            Self::AtMost(bound) => measured - bound,
        };
        (missing > 0.0).then_some(missing)
    }
}

/// The marks of a table, and what was measured.
#[derive(Default)]
pub struct Marks(Vec<(String, Mark, Option<f64>)>);

impl Marks {
    pub fn see(&mut self, what: &str, mark: Mark, times: &Times) {
        self.0.push((what.to_owned(), mark, mark.measured(times)));
    }

    pub fn print(&self) {
        println!();
        println!("Marks:");
        println!();
        println!("| what | mark | measured | |");
        println!("|---|---|---|---|");
        let (mut held, mut unmeasured) = (0, 0);
        for (what, mark, measured) in &self.0 {
            let (figure, verdict) = match measured.map(|figure| (figure, mark.missed_by(figure))) {
                None => {
                    unmeasured += 1;
                    (String::new(), "not measured".to_owned())
                }
                Some((figure, None)) => {
                    held += 1;
                    (format!("{figure:.2}"), "holds".to_owned())
                }
                // Rounded up, so that what is missed is not by nothing.
                Some((figure, Some(missing))) => (
                    format!("{figure:.2}"),
                    format!("missed by {:.2}", (missing * 100.0).ceil() / 100.0),
                ),
            };
            println!("| {what} | {} | {figure} | {verdict} |", mark.text());
        }
        println!();
        match unmeasured {
            0 => println!("{held} of {} hold.", self.0.len()),
            _ => println!(
                "{held} of {} hold, and {unmeasured} are not measured.",
                self.0.len()
            ),
        }
    }
}
