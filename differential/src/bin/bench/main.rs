//! Measures how long the port takes beside the original, plain C and two libraries of decoders, in
//! one run that takes turns between them, and prints Markdown tables.

mod agreement;
mod aligned;
mod blocks;
mod c;
mod macroblocks;
mod marks;
mod predictors;
mod table;

use std::env;
use std::process::ExitCode;

use blocks::Blocks;
use macroblocks::Macroblocks;
use predictors::updates::Updates;
use predictors::vectors::Vectors;
use table::Effort;

const USAGE: &str = "\
usage: bench [--quick] [TABLE...]
  prints tables of the times that the contestants take: to predict a block (blocks), to predict
  a macroblock (macroblocks), to update the predictors (updates), to reconstruct a vector
  (vectors); all, or those that are named
  --quick  with fewer repetitions";

#[derive(Clone, Copy, PartialEq)]
enum Kind {
    Blocks,
    Macroblocks,
    Updates,
    Vectors,
}

/// In the order in which they are printed.
const KINDS: [(&str, Kind); 4] = [
    ("blocks", Kind::Blocks),
    ("macroblocks", Kind::Macroblocks),
    ("updates", Kind::Updates),
    ("vectors", Kind::Vectors),
];

/// What the command asks for.
struct Request {
    effort: Effort,
    kinds: Vec<Kind>,
}

fn main() -> ExitCode {
    match request().and_then(run) {
        Ok(()) => ExitCode::SUCCESS,
        Err(message) => {
            eprintln!("{message}");
            ExitCode::from(2)
        }
    }
}

fn request() -> Result<Request, String> {
    let mut effort = Effort::Full;
    let mut named = Vec::new();
    for argument in env::args().skip(1) {
        match KINDS.into_iter().find(|(name, _)| *name == argument) {
            Some((_, kind)) => named.push(kind),
            None if argument == "--quick" => effort = Effort::Quick,
            None => return Err(USAGE.to_owned()),
        }
    }
    let kinds = KINDS.into_iter().map(|(_, kind)| kind);
    Ok(Request {
        effort,
        kinds: kinds
            .filter(|kind| named.is_empty() || named.contains(kind))
            .collect(),
    })
}

/// A table whose calls are drawn and compared: what is left is to print it.
type Prepared = Box<dyn Fn(Effort)>;

fn prepare(kind: Kind) -> Result<Prepared, String> {
    Ok(match kind {
        Kind::Blocks => {
            let blocks = Blocks::prepare()?;
            Box::new(move |effort| blocks.print(effort))
        }
        Kind::Macroblocks => {
            let macroblocks = Macroblocks::prepare()?;
            Box::new(move |effort| macroblocks.print(effort))
        }
        Kind::Updates => {
            let updates = Updates::prepare()?;
            Box::new(move |effort| updates.print(effort))
        }
        Kind::Vectors => {
            let vectors = Vectors::prepare()?;
            Box::new(move |effort| vectors.print(effort))
        }
    })
}

fn run(request: Request) -> Result<(), String> {
    if cfg!(debug_assertions) {
        return Err("the times are those of the release build: run with --release".to_owned());
    }
    // All is compared before anything is timed.
    let tables: Vec<Prepared> = request
        .kinds
        .into_iter()
        .map(prepare)
        .collect::<Result<_, _>>()?;

    println!(
        "Batches of calls by turns of the Rust original (release build), of Fozdrik, and of the \
         others that a table has, with the same inputs, in an order that is drawn for each \
         repetition. Times are in ns a call, medians over the repetitions, and the ratios are \
         theirs: how many times as fast as the Rust Fozdrik is, and how much of another's time it \
         takes. The quartiles are in the order of the columns. Before that, all were seen to give \
         the same for every call. C is plain C, by the system's compiler at -O3."
    );
    for who in c::absent() {
        println!();
        println!(
            "{} is left out: it was not found when this program was built.",
            who.name()
        );
    }
    for table in tables {
        table(request.effort);
    }
    Ok(())
}
