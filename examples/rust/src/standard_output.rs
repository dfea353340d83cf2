//! Standard output whose reader may have gone.
use crate::failure::{on, Failure};
use std::io::Write;

/// Prints all of it or fails; `print!` would panic.
pub fn print(text: &str) -> Result<(), Failure> {
    let mut out = std::io::stdout().lock();
    out.write_all(text.as_bytes())
        .and_then(|()| out.flush())
        .map_err(on("standard output"))
}
