//! How the program ends when something is wrong: one line on standard error, and a status.
use std::fmt::Display;
use udx::Refusal;

#[derive(Debug)]
pub struct Failure {
    pub status: u8,
    pub text: String,
}

/// Something went wrong while running: status 1.
pub fn failed(text: impl Into<String>) -> Failure {
    let text = text.into();
    Failure { status: 1, text }
}

/// The command line is wrong: status 2.
pub fn bad_use(text: impl Into<String>) -> Failure {
    let text = text.into();
    Failure { status: 2, text }
}

/// If the engine refuses what it never should, this program has a bug.
pub fn refused(call: &str) -> impl Fn(Refusal) -> Failure + '_ {
    move |why| failed(format!("{call} was refused with {}", why.number()))
}

/// A file that cannot be read or written.
pub fn on<E: Display>(path: impl Display) -> impl Fn(E) -> Failure {
    move |why| failed(format!("{path}: {why}"))
}
