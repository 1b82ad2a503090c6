//! Makes the fixed lists of the original's answers that the replay programs read, and the list of
//! placing, which the original does not have, or checks that the ones in the repository are what is
//! made today; or draws other lists, and sees that the programs agree with these.

mod combine_predictions;
mod forming_predictions;
mod fozdrik;
mod inter_reconstruction;
mod list;
mod placing;
mod pmv;
mod replay;

use std::env;
use std::ffi::OsString;
use std::fs;
use std::io;
use std::path::{Path, PathBuf};
use std::process::ExitCode;
use std::str::FromStr;

use list::{Edition, List};
use replay::Replay;

/// A maker for each list. A new one adds its module above and a line here, at the end: its place
/// decides what `--replay` draws.
const MAKERS: &[fn(Edition) -> List] = &[
    combine_predictions::list,
    forming_predictions::list,
    pmv::list,
    inter_reconstruction::list,
    placing::list,
    fozdrik::list,
];

const USAGE: &str = "\
usage: lists [--check] [--root DIR]
       lists --replay DIR [--seed N] [--rounds N]
  writes every list to its place below DIR, the repository's root if not given
  --check   writes nothing; compares what is there with what is made today
  --replay  writes nothing; draws lists, and gives them to the replay programs in DIR, which have to
            agree with all of it. Prints how many cases each call had, by its answers; none may be
            without a case
  --seed    what these lists are drawn from; 771 if not given
  --rounds  how many are drawn for each program; 100 if not given";

const SEED: u64 = 771;
const ROUNDS: u64 = 100;

struct Options {
    check: bool,
    root: PathBuf,
    replay: Option<PathBuf>,
    seed: u64,
    rounds: u64,
}

fn main() -> ExitCode {
    match options().and_then(|options| run(&options)) {
        Ok(true) => ExitCode::SUCCESS,
        Ok(false) => ExitCode::FAILURE,
        Err(message) => {
            eprintln!("{message}");
            ExitCode::from(2)
        }
    }
}

fn options() -> Result<Options, String> {
    let mut options = Options {
        check: false,
        root: repository(),
        replay: None,
        seed: SEED,
        rounds: ROUNDS,
    };
    let number = |argument: Option<OsString>| {
        let text = argument.and_then(|argument| argument.into_string().ok());
        text.and_then(|text| u64::from_str(&text).ok()).ok_or(USAGE)
    };
    let mut arguments = env::args_os().skip(1);
    while let Some(argument) = arguments.next() {
        match argument.to_str() {
            Some("--check") => options.check = true,
            Some("--root") => options.root = arguments.next().ok_or(USAGE)?.into(),
            Some("--replay") => options.replay = Some(arguments.next().ok_or(USAGE)?.into()),
            Some("--seed") => options.seed = number(arguments.next())?,
            Some("--rounds") => options.rounds = number(arguments.next())?,
            _ => return Err(USAGE.to_owned()),
        }
    }
    Ok(options)
}

fn repository() -> PathBuf {
    let package = Path::new(env!("CARGO_MANIFEST_DIR"));
    let root = package
        .parent()
        .expect("the package lies in the repository");
    root.to_owned()
}

/// Goes through all lists; whether each one was written, or found as committed.
fn run(options: &Options) -> Result<bool, String> {
    if cfg!(debug_assertions) {
        return Err("the answers are those of the release build: run with --release".to_owned());
    }
    if let Some(programs) = &options.replay {
        return replayed(options, programs);
    }
    let mut good = true;
    for make in MAKERS {
        let list = make(Edition::Kept);
        println!("{}: {}", list.name, list.place);
        for line in list.made.lines() {
            println!("    {line}");
        }
        println!("    {} cases, {} bytes", list.cases, list.text.len());
        let place = options.root.join(list.place);
        if options.check {
            let difference = difference(&place, &list.text)?;
            println!("    {}", difference.as_deref().unwrap_or("as committed"));
            good &= difference.is_none();
        } else {
            write(&place, &list.text)?;
            println!("    written");
        }
    }
    Ok(good)
}

/// Whether all programs agree with what is drawn, and every answer was met.
fn replayed(options: &Options, programs: &Path) -> Result<bool, String> {
    let replay = Replay {
        programs: programs.to_owned(),
        seed: options.seed,
        rounds: options.rounds,
        kept: options.root.join("build/disagreement.txt"),
    };
    let mut good = true;
    for (place, make) in (0..).zip(MAKERS) {
        match replay.layer(*make, place) {
            Ok(complete) => good &= complete,
            Err(disagreement) => {
                println!("{disagreement}");
                return Ok(false);
            }
        }
    }
    if !good {
        println!("a call or an answer was met by no case");
    }
    Ok(good)
}

fn write(place: &Path, text: &str) -> Result<(), String> {
    let folder = place.parent().unwrap_or(Path::new("."));
    fs::create_dir_all(folder)
        .and_then(|()| fs::write(place, text))
        .map_err(|cause| format!("cannot write {}: {cause}", place.display()))
}

/// What first tells the file from the text, if anything does.
fn difference(place: &Path, text: &str) -> Result<Option<String>, String> {
    let committed = match fs::read(place) {
        Ok(bytes) => bytes,
        Err(cause) if cause.kind() == io::ErrorKind::NotFound => {
            return Ok(Some("not there".to_owned()));
        }
        Err(cause) => return Err(format!("cannot read {}: {cause}", place.display())),
    };
    if committed == text.as_bytes() {
        return Ok(None);
    }
    // The text is ASCII: what is not UTF-8 in the file differs from it as well.
    let committed = String::from_utf8_lossy(&committed);
    let lines = || {
        committed
            .split_inclusive('\n')
            .zip(text.split_inclusive('\n'))
    };
    let line = lines().take_while(|(there, here)| there == here).count();
    let column = lines().nth(line).map_or(0, |(there, here)| {
        let pairs = there.chars().zip(here.chars());
        pairs.take_while(|(there, here)| there == here).count()
    });
    Ok(Some(format!(
        "differs first at line {}, column {}\n    committed:  {}\n    made today: {}",
        line + 1,
        column + 1,
        excerpt(&committed, line, column),
        excerpt(text, line, column),
    )))
}

/// A line from a little before a column on, as far as it is worth showing.
fn excerpt(text: &str, line: usize, column: usize) -> String {
    const BEFORE: usize = 20;
    const SHOWN: usize = 80;
    match text.split_inclusive('\n').nth(line) {
        None => "the end of the file".to_owned(),
        Some(line) => {
            let start = column.saturating_sub(BEFORE);
            let shown: String = line.chars().skip(start).take(SHOWN).collect();
            format!("{shown:?}")
        }
    }
}
