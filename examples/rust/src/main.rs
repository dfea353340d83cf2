//! A hub and a gateway in one process, over a simulated line that loses, repeats and reorders datagrams. The hub sends samples or a file,
//! the gateway reads and checks every byte; with `--both` also in the other direction. `--help` lists the options; transfer.rs has the loop
//! to copy. The C program in ../c does the same, and prints the same for the same options.
mod failure;
mod line;
mod log;
mod options;
mod report;
mod samples;
mod source;
mod standard_output;
mod transfer;

use failure::{failed, Failure};
use options::{Options, HELP};
use report::{summary, Watch};
use std::io::{stderr, Write};
use std::process::ExitCode;
use transfer::Transfer;

/// Returns whether every byte arrived as it was sent.
fn run() -> Result<bool, Failure> {
    let options = Options::parse(std::env::args_os().skip(1))?;
    if options.help {
        return standard_output::print(HELP).map(|()| true);
    }
    let mut watch = Watch::start(options.limit);
    let mut transfer = Transfer::new(&options)?;
    transfer.carry_all(&mut watch)?;
    transfer.close_both()?;
    let (text, right) = summary(&transfer, &options).map_err(|why| failed(why.to_string()))?;
    let last = watch.wall_clock(&transfer);
    drop(watch);
    standard_output::print(&(text + &last))?;
    Ok(right)
}

fn main() -> ExitCode {
    match run() {
        Ok(true) => ExitCode::SUCCESS,
        Ok(false) => ExitCode::FAILURE,
        Err(why) => {
            // If standard error is closed too, there is nobody left to tell.
            let _ = writeln!(stderr(), "bad_line: {}", why.text);
            ExitCode::from(why.status)
        }
    }
}
