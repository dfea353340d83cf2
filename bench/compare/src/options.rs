//! The command line.

pub const HELP: &str = "\
compare: the engine beside the original, nanoseconds of a packet's path and of each call, as Markdown tables

  --passes N      time every engine N times in turn, and keep the best (100)
  --packets N     packets of a pass (3,200)
  --row N         this row alone, counted from 1, in this process
  --numbers       with --row: what was found as a line of numbers, as the program asks itself for it
  --only ENGINE   this engine alone: boundary, direct or original
  --help          this text";

pub struct Options {
    pub passes: u32,
    pub packets: u64,
    pub row: Option<usize>,
    pub numbers: bool,
    pub only: Option<String>,
}

/// The options, or `None` if help was requested.
pub fn read(words: impl Iterator<Item = String>) -> Result<Option<Options>, String> {
    let mut options = Options {
        passes: 100,
        packets: 3_200,
        row: None,
        numbers: false,
        only: None,
    };
    let mut words = words;
    while let Some(word) = words.next() {
        let mut value = || words.next().ok_or(format!("{word} asks for a value"));
        match word.as_str() {
            "--help" => return Ok(None),
            "--passes" => options.passes = number(&value()?)?,
            "--packets" => options.packets = number::<u32>(&value()?)?.into(),
            "--row" => options.row = Some(number(&value()?)?),
            "--numbers" => options.numbers = true,
            "--only" => options.only = Some(value()?),
            _ => return Err(format!("unknown option {word}, see --help")),
        }
    }
    if options.numbers && options.row.is_none() {
        return Err("--numbers asks for a row".to_string());
    }
    Ok(Some(options))
}

fn number<T: std::str::FromStr + PartialOrd + From<u8>>(word: &str) -> Result<T, String> {
    match word.parse() {
        Ok(number) if number >= T::from(1) => Ok(number),
        _ => Err(format!("{word} is not a number from 1 on")),
    }
}
