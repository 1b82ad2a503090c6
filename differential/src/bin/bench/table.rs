//! Times taken by turns, and the table of them.

use std::time::{Duration, Instant};

use oracle::rng::Rng;

/// Of the orders in which the contestants take their turns.
const SEED: u64 = 770;

#[derive(Clone, Copy)]
pub enum Effort {
    Full,
    Quick,
}

/// The contestants.
#[derive(Clone, Copy, PartialEq)]
pub enum Who {
    Rust,
    /// Through its C entry points.
    Fozdrik,
    /// One of Fozdrik's layers, through entry points of the benchmark's own.
    Layer,
    /// Plain C.
    C,
    Avcodec,
    Mpeg2,
}

impl Who {
    pub fn name(self) -> &'static str {
        match self {
            Self::Rust => "Rust",
            Self::Fozdrik => "Fozdrik",
            Self::Layer => "layer",
            Self::C => "C",
            Self::Avcodec => "libavcodec",
            Self::Mpeg2 => "libmpeg2",
        }
    }

    /// The head of the column that has its ratio.
    fn ratio_name(self) -> Option<String> {
        match self {
            Self::Fozdrik => None,
            Self::Rust => Some("times as fast as the Rust".to_owned()),
            Self::Layer => Some("the layer, times as fast".to_owned()),
            Self::C | Self::Avcodec | Self::Mpeg2 => Some(format!("of {}'s time", self.name())),
        }
    }
}

/// A batch of calls; an object, so that its code is there once, whoever goes first.
pub type Batch<'a> = &'a mut dyn FnMut();

/// A table that is printed row by row.
pub struct Table {
    /// In the order of the columns. A row need not have all of them.
    pub contestants: Vec<Who>,
    /// How many batches each contestant makes for a row: one more than a multiple of 4, so that
    /// each quartile is one of the times.
    pub repetitions: usize,
    /// How many calls a batch makes.
    pub calls: usize,
    /// The decimals of how many times as fast.
    pub decimals: usize,
}

impl Table {
    /// The title, the paragraph, which starts with the number of calls, and the head.
    pub fn print_head(&self, title: &str, paragraph: &str) {
        let Self {
            repetitions, calls, ..
        } = self;
        println!();
        println!("## {title}");
        println!();
        println!("{repetitions} repetitions of {calls} calls: {paragraph}");
        println!();
        let mut heads = vec!["what".to_owned()];
        heads.extend(
            self.contestants
                .iter()
                .map(|who| format!("{} ns", who.name())),
        );
        heads.extend(self.contestants.iter().filter_map(|who| who.ratio_name()));
        heads.push("quartiles".to_owned());
        print_cells(&heads);
        println!("|{}", "---|".repeat(heads.len()));
    }

    /// A row, measured and printed.
    pub fn print_row(&self, what: &str, batches: &mut [(Who, Batch<'_>)]) -> Times {
        let times = self.measure(batches);
        self.print(what, &times, |who| times.ratio(who));
        times
    }

    /// A row of what is part of the times above and the work of no contestant.
    pub fn print_overhead(&self, what: &str, batches: &mut [(Who, Batch<'_>)]) {
        self.print(what, &self.measure(batches), |_| None);
    }

    /// Batches by turns, in an order that is drawn for every repetition, so that each contestant
    /// comes after each other one.
    fn measure(&self, batches: &mut [(Who, Batch<'_>)]) -> Times {
        let mut rng = Rng::new(SEED);
        let mut order: Vec<usize> = (0..batches.len()).collect();
        let mut taken = vec![Vec::new(); batches.len()];
        for _ in 0..self.repetitions {
            rng.shuffle(&mut order);
            for index in &order {
                taken[*index].push(time(batches[*index].1));
            }
        }
        let whose = batches.iter().map(|(who, _)| *who);
        Times(
            whose
                .zip(taken.into_iter().map(|batches| self.quartiles(batches)))
                .collect(),
        )
    }

    fn quartiles(&self, mut batches: Vec<Duration>) -> Quartiles {
        batches.sort_unstable();
        let quarter = batches.len() / 4;
        let [lower, median, upper] =
            [1, 2, 3].map(|count| batches[count * quarter].as_nanos() as f64 / self.calls as f64);
        Quartiles {
            lower,
            median,
            upper,
        }
    }

    fn print(&self, what: &str, times: &Times, ratio: impl Fn(Who) -> Option<f64>) {
        let or_blank = |cell: Option<String>| cell.unwrap_or_default();
        let mut cells = vec![what.to_owned()];
        for who in &self.contestants {
            let median = times.of(*who).map(|of| format!("{:.1}", of.median));
            cells.push(or_blank(median));
        }
        for who in &self.contestants {
            let decimals = match who {
                Who::Rust | Who::Layer => self.decimals,
                _ => 2,
            };
            if who.ratio_name().is_some() {
                cells.push(or_blank(
                    ratio(*who).map(|ratio| format!("{ratio:.decimals$}")),
                ));
            }
        }
        let quartiles = self.contestants.iter().filter_map(|who| times.of(*who));
        let quartiles: Vec<_> = quartiles
            .map(|of| format!("{:.1}–{:.1}", of.lower, of.upper))
            .collect();
        cells.push(quartiles.join(", "));
        print_cells(&cells);
    }
}

/// Times in ns for one call.
#[derive(Clone, Copy)]
struct Quartiles {
    lower: f64,
    median: f64,
    upper: f64,
}

/// The times of a row.
pub struct Times(Vec<(Who, Quartiles)>);

impl Times {
    fn of(&self, who: Who) -> Option<Quartiles> {
        let found = self.0.iter().find(|(whose, _)| *whose == who);
        found.map(|(_, times)| *times)
    }

    /// By the medians: how many times as fast as the Rust Fozdrik is, or its layer; and how much of
    /// another's time Fozdrik takes.
    pub fn ratio(&self, who: Who) -> Option<f64> {
        let (above, below) = match who {
            Who::Rust => (Who::Rust, Who::Fozdrik),
            Who::Layer => (Who::Rust, Who::Layer),
            other => (Who::Fozdrik, other),
        };
        Some(self.of(above)?.median / self.of(below)?.median)
    }
}

fn print_cells(cells: &[String]) {
    println!("| {} |", cells.join(" | "));
}

fn time(batch: &mut dyn FnMut()) -> Duration {
    let start = Instant::now();
    batch();
    start.elapsed()
}
