//! Lists that are drawn and not kept, through the replay programs: every public call that the
//! original has a counterpart of, by as many cases as are asked for.

use std::collections::{BTreeMap, HashSet};
use std::hash::{DefaultHasher, Hash, Hasher};
use std::io::{self, IsTerminal, Write};
use std::path::{Path, PathBuf};
use std::process::{Command, Stdio};
use std::time::Instant;

use oracle::rng::Rng;

use crate::list::{Edition, Kind, List};

/// What is replayed, and how often.
pub struct Replay {
    /// The folder of the replay programs.
    pub programs: PathBuf,
    pub seed: u64,
    pub rounds: u64,
    /// Where a list is kept that a program does not agree with.
    pub kept: PathBuf,
}

/// How often a kind of line had each answer; 0 where it has none.
type Answers = BTreeMap<u8, u64>;

impl Replay {
    /// Whether a layer's program agrees with every list, and each call and answer was met.
    pub fn layer(&self, make: fn(Edition) -> List, place: u64) -> Result<bool, String> {
        let start = Instant::now();
        let terminal = io::stderr().is_terminal();
        let mut met = BTreeMap::<&'static str, Answers>::new();
        let kept = make(Edition::Kept);
        if self.disagreement(&kept)?.is_none() {
            return Err(format!(
                "{}: the program agrees with what is wrong on purpose",
                kept.name
            ));
        }
        // of the lists' lines; what stands in the one that is kept is not new
        let mut seen: HashSet<u64> = lines(&kept).map(hash).collect();
        let (mut cases, mut drawn) = (0, 0);
        let mut seeds = Rng::new(self.seed.wrapping_add(place << 32));
        let mut last = None;
        for round in 1..=self.rounds {
            let list = make(Edition::Drawn(seeds.next_u64()));
            if let Some(what) = self.disagreement(&list)? {
                crate::write(&self.kept, &list.text)?;
                let kept = self.kept.display();
                return Err(format!(
                    "{}, list {round}: {what}; it is kept in {kept}",
                    list.name
                ));
            }
            for line in lines(&list) {
                cases += 1;
                drawn += u64::from(seen.insert(hash(line)));
                let (kind, answer) = kind_and_answer(&list, line);
                *met.entry(kind).or_default().entry(answer).or_default() += 1;
            }
            if terminal {
                eprint!("\r{}: {cases} cases", list.name);
                let _ = io::stderr().flush();
            }
            last = Some(list);
        }
        if terminal {
            eprint!("\r\x1b[K");
        }
        let Some(list) = last else {
            return Ok(true);
        };
        println!(
            "{}: {cases} cases of {} lists agree, {drawn} of them in no list before; {:.1} s",
            list.name,
            self.rounds,
            start.elapsed().as_secs_f64(),
        );
        let mut complete = true;
        for kind in list.kinds {
            complete &= print_row(kind, met.get(kind.number).unwrap_or(&Answers::new()));
        }
        Ok(complete)
    }

    /// Runs a layer's program on a list; what it says first, unless it agrees with all of it.
    fn disagreement(&self, list: &List) -> Result<Option<String>, String> {
        let path = self.programs.join(program(list));
        let failed = |cause: io::Error| format!("cannot run {}: {cause}", path.display());
        let mut child = Command::new(&path)
            .stdin(Stdio::piped())
            .stdout(Stdio::piped())
            .spawn()
            .map_err(failed)?;
        // a program reads all of its list before it writes
        let mut stdin = child.stdin.take().expect("the program is given a list");
        stdin.write_all(list.text.as_bytes()).map_err(failed)?;
        drop(stdin);
        let output = child.wait_with_output().map_err(failed)?;
        let said = String::from_utf8_lossy(&output.stdout);
        let right = format!("{0} cases, {0} agree\n", list.cases);
        if output.status.success() && said == right {
            return Ok(None);
        }
        let first = said.lines().next().unwrap_or("nothing is said");
        Ok(Some(format!("{first}; {}", output.status)))
    }
}

/// The program that replays a list lies in the folder that has the one that is kept.
fn program(list: &List) -> String {
    let folder = Path::new(list.place).parent().and_then(Path::file_name);
    let name = folder.expect("a list is kept in its program's folder");
    name.to_string_lossy().into_owned()
}

fn lines(list: &List) -> impl Iterator<Item = &str> {
    list.text.lines().filter(|line| !line.starts_with('#'))
}

fn hash(line: &str) -> u64 {
    let mut hasher = DefaultHasher::new();
    line.hash(&mut hasher);
    hasher.finish()
}

fn kind_and_answer(list: &List, line: &str) -> (&'static str, u8) {
    let mut fields = line.split(' ');
    let number = fields.next().unwrap_or_default();
    let kind = list.kinds.iter().find(|kind| kind.number == number);
    let kind = kind.unwrap_or_else(|| panic!("a line of a kind that is not named: {line}"));
    let answer = kind.answer.map_or(0, |(field, answers)| {
        let answer = fields.nth(field - 1).and_then(|text| text.parse().ok());
        answer
            .filter(|answer| answers.contains(answer))
            .unwrap_or_else(|| panic!("an answer that the call does not have: {line}"))
    });
    (kind.number, answer)
}

/// Prints how often a call had each answer; whether each was met.
fn print_row(kind: &Kind, met: &Answers) -> bool {
    let answers = kind.answer.map_or(&[0][..], |(_, answers)| answers);
    let count = |answer: &u8| met.get(answer).copied().unwrap_or(0);
    let texts: Vec<String> = answers
        .iter()
        .map(|answer| match (kind.answer, answer) {
            (None, _) => count(answer).to_string(),
            (_, 0) => format!("accepted {}", count(answer)),
            _ => format!("{answer}: {}", count(answer)),
        })
        .collect();
    println!("    {:40} {}", kind.call, texts.join(", "));
    answers.iter().all(|answer| count(answer) > 0)
}
