//! Times the engine beside the original it is a port of, in one run and with one driver. See bench/README.md.

mod boundary;
mod case;
mod direct;
mod driver;
mod end;
mod line;
mod numbers;
mod options;
#[cfg(feature = "original")]
mod original;
mod rows;
mod table;
mod watch;

use case::Engine;
use options::Options;
use rows::{Engines, Found, Kind, Row};
use std::io::Write;
use std::process::{Command, ExitCode, Stdio};

fn engines(only: Option<&str>) -> Result<Engines, String> {
    #[cfg(feature = "original")]
    let original = Some(Engine::new::<original::Original>("original"));
    #[cfg(not(feature = "original"))]
    let original = None;
    let direct = Some(Engine::new::<direct::Direct>("direct"));
    let boundary = Some(Engine::new::<boundary::Boundary>("boundary"));
    let engines = [original, direct, boundary];
    let Some(only) = only else { return Ok(engines) };
    let engines = engines.map(|engine| engine.filter(|engine| engine.name == only));
    if engines.iter().all(Option::is_none) {
        return Err(format!("there is no engine {only} here"));
    }
    Ok(engines)
}

/// Times a row in this process.
fn timed(row: Row, options: &Options) -> Result<Found, String> {
    rows::time(row, &engines(options.only.as_deref())?, options)
}

/// Times a row in a process of its own: what earlier rows leave on the heap changes the times of engines that allocate.
fn apart(number: usize, options: &Options) -> Result<Found, String> {
    let program = std::env::current_exe().map_err(|why| why.to_string())?;
    let mut command = Command::new(program);
    command.args(["--numbers", "--row", &number.to_string()]);
    command.args(["--passes", &options.passes.to_string(), "--packets", &options.packets.to_string()]);
    if let Some(only) = &options.only {
        command.args(["--only", only]);
    }
    let output = command.stderr(Stdio::inherit()).output().map_err(|why| why.to_string())?;
    let line = String::from_utf8_lossy(&output.stdout);
    let found = numbers::found(&line).filter(|_| output.status.success());
    found.ok_or(format!("row {number} could not be timed"))
}

/// The tables of all rows, or the results of the one requested.
fn answer(options: &Options) -> Result<String, String> {
    let rows = rows::all();
    if let Some(number) = options.row {
        let row = *rows.get(number - 1).ok_or(format!("there are {} rows", rows.len()))?;
        let found = timed(row, options)?;
        return Ok(match options.numbers {
            true => numbers::line(&found),
            false => table::all(options, &[(row, found)]),
        });
    }
    engines(options.only.as_deref())?;
    let mut found = Vec::new();
    for (row, number) in rows.iter().zip(1..) {
        let Row { kind, load, percent } = *row;
        let what = if kind == Kind::Path { "a packet" } else { "each call" };
        eprintln!(
            "row {number} of {}: {what}, {} bytes, {percent} % loss, {} in flight",
            rows.len(),
            load.size,
            load.flight
        );
        found.push((*row, apart(number, options)?));
    }
    Ok(table::all(options, &found))
}

fn main() -> ExitCode {
    let text = options::read(std::env::args().skip(1)).and_then(|options| match options {
        Some(options) => answer(&options),
        None => Ok(format!("{}\n", options::HELP)),
    });
    let written = text.and_then(|text| std::io::stdout().write_all(text.as_bytes()).map_err(|why| why.to_string()));
    match written {
        Ok(()) => ExitCode::SUCCESS,
        Err(why) => {
            eprintln!("compare: {why}");
            ExitCode::FAILURE
        }
    }
}
