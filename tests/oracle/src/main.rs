//! `oracle`: see README.md.

use oracle::compare::{self, Plan};
use oracle::engine::{Engine, ORIGINAL};
use oracle::record::{self, Recorded};
use oracle::script::{self, Kind};
use oracle::table::Table;
use oracle::{generate, named};
use std::io::{Read, Write};
use std::path::Path;
use std::process::ExitCode;

const USAGE: &str = "\
usage: oracle run KIND                               runs the script on standard input and prints its lines
       oracle generate KIND SEED COUNT FOLDER        writes random scripts SEED.. as FOLDER/SEED.script and .lines
       oracle compare KIND SEED COUNT --port PROGRAM [--seconds N] [--jobs N]
                                                     holds PROGRAM to the original on named and random scripts
       oracle table KIND SEED COUNT                  counts what each command answers in random scripts
       oracle named                                  prints the scripts written by hand and their lines
       oracle record FOLDER                          writes FOLDER/scripts.bin: scripts and their lines, for replay
       oracle recorded FILE                          holds the recorded scripts to the original, but for one of a minute
       oracle replay FILE KIND --port PROGRAM        holds PROGRAM to the recorded scripts of that kind
       oracle mutants SEED COUNT [FILE]              tells how soon wrong versions are noticed, and whether by the
                                                     recorded scripts of FILE (built with the feature mutants)
       oracle mutant NUMBER KIND                     runs the script on standard input on a wrong version, from 0 on
KIND is session or drill. Status 0: all agree; 1: a difference; 2: bad usage or a file that cannot be had.
";

fn main() -> ExitCode {
    let words: Vec<String> = std::env::args().skip(1).collect();
    let words: Vec<&str> = words.iter().map(String::as_str).collect();
    match command(&words) {
        Ok(true) => ExitCode::SUCCESS,
        Ok(false) => ExitCode::from(1),
        Err(error) => {
            eprintln!("oracle: {error}");
            ExitCode::from(2)
        }
    }
}

fn command(words: &[&str]) -> Result<bool, String> {
    match words {
        ["run", kind] => {
            print(&script::run(kind_of(kind)?, &input()?, ORIGINAL))?;
            Ok(true)
        }
        ["generate", kind, seed, count, folder] => {
            let (kind, seed, count) = (kind_of(kind)?, number(seed)?, number(count)?);
            let folder = Path::new(folder);
            for seed in seed..seed + count {
                let one = generate::script(kind, seed);
                save(&folder.join(format!("{seed}.script")), &one.bytes)?;
                save(&folder.join(format!("{seed}.lines")), &one.lines)?;
            }
            Ok(true)
        }
        ["compare", kind, seed, count, options @ ..] => {
            let option = |name: &str| options.chunks(2).find(|pair| pair[0] == name).and_then(|pair| pair.get(1).copied());
            if options.len() % 2 != 0 || options.chunks(2).any(|p| !["--port", "--seconds", "--jobs"].contains(&p[0])) {
                return Err(format!("compare: options not understood\n{USAGE}"));
            }
            let program = option("--port").ok_or(format!("compare needs --port PROGRAM\n{USAGE}"))?;
            if !Path::new(program).is_file() {
                return Err(format!("{program}: no such program"));
            }
            compare::compare(&Plan {
                kind: kind_of(kind)?,
                seed: number(seed)?,
                count: number(count)?,
                seconds: option("--seconds").map(number).transpose()?,
                jobs: option("--jobs").map_or(Ok(2), number)?,
                program: Path::new(program),
            })
        }
        ["table", kind, seed, count] => {
            let (kind, seed, count) = (kind_of(kind)?, number(seed)?, number(count)?);
            let mut table = Table::default();
            for seed in seed..seed + count {
                table.add(&generate::script(kind, seed));
            }
            print(table.to_string().as_bytes())?;
            Ok(true)
        }
        ["named"] => {
            for one in named::all() {
                let hex: String = one.bytes.iter().map(|byte| format!("{byte:02x}")).collect();
                let lines = match one.slow {
                    true => b"(takes a minute: run it by itself)\n".to_vec(),
                    false => script::run(one.kind, &one.bytes, ORIGINAL),
                };
                print(format!("# {} ({})\n{hex}\n{}\n", one.name, one.kind.name(), String::from_utf8_lossy(&lines)).as_bytes())?;
            }
            Ok(true)
        }
        ["record", folder] => {
            if !Path::new(folder).is_dir() {
                return Err(format!("{folder}: no such folder"));
            }
            save(&Path::new(folder).join("scripts.bin"), &record::file())?;
            Ok(true)
        }
        ["recorded", file] => compare::recorded(&recorded(file)?),
        ["replay", file, kind, "--port", program] => compare::replay(&recorded(file)?, kind_of(kind)?, Path::new(program)),
        ["mutants", seed, count] => mutants(number(seed)?, number(count)?, &[]),
        ["mutants", seed, count, file] => mutants(number(seed)?, number(count)?, &recorded(file)?),
        ["mutant", index, kind] => {
            print(&script::run(kind_of(kind)?, &input()?, mutant(number(index)?)?))?;
            Ok(true)
        }
        [] => Err(USAGE.into()),
        [other, ..] => Err(format!("'{other}' is no command, or its words are not understood\n{USAGE}")),
    }
}

#[cfg(feature = "mutants")]
fn mutants(seed: u64, count: u64, recorded: &[Recorded]) -> Result<bool, String> {
    Ok(oracle::hunt::hunt(seed, count, recorded))
}

#[cfg(feature = "mutants")]
fn mutant(index: u64) -> Result<Engine, String> {
    oracle::mutants::ENGINES.get(index as usize).copied().ok_or(format!("no mutation {index}"))
}

#[cfg(not(feature = "mutants"))]
const WITHOUT: &str = "built without the wrong versions: cargo build --features mutants";

#[cfg(not(feature = "mutants"))]
fn mutants(_: u64, _: u64, _: &[Recorded]) -> Result<bool, String> {
    Err(WITHOUT.into())
}

#[cfg(not(feature = "mutants"))]
fn mutant(_: u64) -> Result<Engine, String> {
    Err(WITHOUT.into())
}

/// As much of standard input as a program reads.
fn input() -> Result<Vec<u8>, String> {
    let mut bytes = Vec::new();
    std::io::stdin().take(script::MAX_SCRIPT as u64).read_to_end(&mut bytes).map_err(|error| error.to_string())?;
    Ok(bytes)
}

fn recorded(file: &str) -> Result<Vec<Recorded>, String> {
    let bytes = std::fs::read(file).map_err(|error| format!("{file}: {error}"))?;
    record::parse(&bytes).ok_or(format!("{file}: not a file of recorded scripts"))
}

fn kind_of(word: &str) -> Result<Kind, String> {
    match word {
        "session" => Ok(Kind::Session),
        "drill" => Ok(Kind::Drill),
        _ => Err(format!("'{word}' is neither session nor drill\n{USAGE}")),
    }
}

fn number(word: &str) -> Result<u64, String> {
    word.parse().map_err(|_| format!("'{word}' is no number\n{USAGE}"))
}

fn save(path: &Path, bytes: &[u8]) -> Result<(), String> {
    std::fs::write(path, bytes).map_err(|error| format!("{}: {error}", path.display()))
}

/// A reader that stops early, as head does, is no failure.
fn print(bytes: &[u8]) -> Result<(), String> {
    match std::io::stdout().write_all(bytes) {
        Err(error) if error.kind() != std::io::ErrorKind::BrokenPipe => Err(error.to_string()),
        _ => Ok(()),
    }
}
