//! Compares the port with the original at scale, through the four C entry points: answers,
//! predictors, results and samples, and that nothing else is written.

mod coverage;
mod lent;
mod macroblocks;
mod port;
mod predictors;
mod run;

use std::env;
use std::process::ExitCode;
use std::str::FromStr;

use coverage::Table;
use lent::{Around, Place};
use macroblocks::{Call, Macroblocks};
use predictors::updates::Updates;
use predictors::vectors::Vectors;
use run::{Comparison, Run, Wrong};

const SEED: u64 = 770;
const COUNT: u64 = 500_000;
/// A vector or an update takes much less time than a macroblock.
const PREDICTORS_EACH: u64 = 10;

const USAGE: &str = "\
usage: compare [--seed N] [--count N] [--bare]
       compare --wrong
  compares the port with the original: cases at the limits, and drawn ones. At the end it prints
  how many cases met each branch of the definitions; none may be without a case
  --seed   what the drawn cases are drawn from; 770 if not given
  --count  how many macroblocks are drawn for each of the two calls, 500000 if not given; there are
           ten times as many vectors, and as many updates
  --bare   each buffer is an allocation of its own, for a run under valgrind; without the largest
           planes
  --wrong  makes answers and buffers wrong, one by one, and sees that each is noticed";

struct Options {
    seed: u64,
    count: u64,
    around: Around,
    wrong: bool,
}

fn main() -> ExitCode {
    match options().and_then(|options| run(&options)) {
        Ok(true) => ExitCode::SUCCESS,
        Ok(false) => ExitCode::FAILURE,
        Err(message) => {
            eprintln!("{message}");
            ExitCode::from(2)
        }
    }
}

fn options() -> Result<Options, String> {
    let mut options = Options {
        seed: SEED,
        count: COUNT,
        around: Around::Guards,
        wrong: false,
    };
    let mut arguments = env::args().skip(1);
    let number = |argument: Option<String>| {
        let number = argument.as_deref().map(u64::from_str);
        number.and_then(Result::ok).ok_or(USAGE)
    };
    while let Some(argument) = arguments.next() {
        match argument.as_str() {
            "--seed" => options.seed = number(arguments.next())?,
            "--count" => options.count = number(arguments.next())?,
            "--bare" => options.around = Around::Nothing,
            "--wrong" => options.wrong = true,
            _ => return Err(USAGE.to_owned()),
        }
    }
    if options.wrong && options.around == Around::Nothing {
        return Err("without guards there is nothing to be made wrong around a buffer".to_owned());
    }
    Ok(options)
}

/// The comparisons of the four calls. Each draws from a seed of its own.
struct Comparisons {
    vectors: Vectors,
    updates: Updates,
    frame: Macroblocks,
    field: Macroblocks,
}

impl Comparisons {
    fn new(options: &Options) -> Self {
        let run = |name, place: u64| {
            let seed = options.seed.wrapping_add(place << 32);
            Run::new(name, seed, options.around)
        };
        Self {
            vectors: Vectors::new(run("vectors", 0)),
            updates: Updates::new(run("updates", 1)),
            frame: Macroblocks::new(Call::Frame, run("frame-based macroblocks", 2)),
            field: Macroblocks::new(Call::Field, run("field-based macroblocks", 3)),
        }
    }

    fn compare(&mut self, count: u64) -> Comparison {
        let predictors = count.saturating_mul(PREDICTORS_EACH);
        self.vectors
            .compare(predictors)
            .map_err(|what| format!("fozdrik_reconstruct_motion_vector, {what}"))?;
        self.updates
            .compare(predictors)
            .map_err(|what| format!("fozdrik_update_predictors, {what}"))?;
        self.frame
            .compare(count)
            .map_err(|what| format!("fozdrik_predict_frame_macroblock, {what}"))?;
        self.field
            .compare(count)
            .map_err(|what| format!("fozdrik_predict_field_macroblock, {what}"))
    }

    fn runs(&self) -> [&Run; 4] {
        [
            self.vectors.run(),
            self.updates.run(),
            self.frame.run(),
            self.field.run(),
        ]
    }

    fn tables(&self) -> Vec<&Table> {
        let predictors = self
            .vectors
            .tables()
            .into_iter()
            .chain(self.updates.tables());
        let macroblocks = [&self.frame, &self.field];
        predictors
            .chain(macroblocks.into_iter().flat_map(Macroblocks::tables))
            .collect()
    }
}

/// Whether all agrees, and every branch was met.
fn run(options: &Options) -> Result<bool, String> {
    if cfg!(debug_assertions) {
        return Err("the answers are those of the release build: run with --release".to_owned());
    }
    if options.wrong {
        return Ok(notices_what_is_wrong(options));
    }
    println!("seed {}, count {}", options.seed, options.count);
    let mut comparisons = Comparisons::new(options);
    if let Err(disagreement) = comparisons.compare(options.count) {
        println!("they disagree: {disagreement}");
        return Ok(false);
    }
    let mut gaps = Vec::new();
    for table in comparisons.tables() {
        table.print();
        gaps.extend(table.gaps());
    }
    println!();
    for gap in &gaps {
        println!("{gap}");
    }
    let total = |count: fn(&Run) -> u64| comparisons.runs().into_iter().map(count).sum::<u64>();
    println!(
        "all {} cases agree, {} of them refused by the scope alone",
        total(Run::cases),
        total(Run::added),
    );
    Ok(gaps.is_empty())
}

/// Whether each thing that is made wrong is noticed, and nothing where nothing is.
fn notices_what_is_wrong(options: &Options) -> bool {
    const PLACES: [Place; 3] = [Place::Before, Place::Within, Place::Behind];
    let mut kinds = vec![None, Some(Wrong::Answer)];
    kinds.extend(PLACES.map(|place| Some(Wrong::Result(place))));
    kinds.extend(PLACES.map(|place| Some(Wrong::Other(place))));

    let mut good = true;
    for wrong in kinds {
        let mut comparisons = Comparisons::new(options);
        let calls = [
            ("vectors", comparisons.vectors.compare_two(wrong)),
            ("updates", comparisons.updates.compare_two(wrong)),
            ("frame-based", comparisons.frame.compare_two(wrong)),
            ("field-based", comparisons.field.compare_two(wrong)),
        ];
        for (call, results) in calls {
            for (result, case) in results.iter().zip(["accepted", "refused"]) {
                let what = match wrong {
                    None => "nothing wrong".to_owned(),
                    Some(wrong) => format!("{wrong} made wrong"),
                };
                let noticed = result.as_ref().err().map(|text| text.lines().next());
                let said = noticed.flatten().unwrap_or("agree");
                println!("{call}, {case}, {what}: {said}");
                good &= result.is_err() == wrong.is_some();
            }
        }
    }
    println!(
        "{}",
        if good {
            "all that was wrong was noticed, and nothing else"
        } else {
            "the comparison does not notice what it should"
        }
    );
    good
}
