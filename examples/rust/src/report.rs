//! What a run prints: its progress, on standard error, and its summary, on standard output.
use crate::failure::{failed, Failure};
use crate::options::{Options, MILLIONTHS};
use crate::source::Checksum;
use crate::transfer::{Side, Transfer, GATEWAY, HUB};
use std::fmt::{self, Display, Write};
use std::io::{stderr, IsTerminal};
use std::time::{Duration, Instant};

/// With separators.
pub fn grouped(n: u64) -> String {
    let digits = n.to_string();
    let mut text = String::new();
    for (i, digit) in digits.chars().enumerate() {
        if i > 0 && (digits.len() - i) % 3 == 0 {
            text.push(',');
        }
        text.push(digit);
    }
    text
}

/// A number with all its decimals, such as nanoseconds as seconds.
fn with_decimals(n: u64, unit: u64, decimals: usize) -> String {
    format!("{}.{:0decimals$}", grouped(n / unit), n % unit)
}

/// Millionths, without trailing zeros: an option as it was given.
fn trimmed(millionths: u64) -> String {
    let text = with_decimals(millionths, MILLIONTHS, 6);
    text.trim_end_matches('0').trim_end_matches('.').to_string()
}

/// Progress, and the limit of the wall clock.
pub struct Watch {
    start: Instant,
    next: Duration, // when the next progress line is due
    limit: Option<Duration>,
    terminal: bool, // standard error is one: the line is rewritten in place
    line_open: bool,
}

fn megabytes_per_second(bytes: u64, time: Duration) -> f64 {
    let seconds = time.as_secs_f64();
    if seconds > 0.0 {
        bytes as f64 / 1e6 / seconds
    } else {
        0.0
    }
}

impl Watch {
    pub fn start(limit: Option<u64>) -> Watch {
        let terminal = stderr().is_terminal();
        Watch {
            start: Instant::now(),
            next: Duration::from_secs(if terminal { 1 } else { 10 }),
            limit: limit.map(Duration::from_micros),
            terminal,
            line_open: false,
        }
    }

    fn show(&mut self, transfer: &Transfer, time: Duration) {
        let (read, all) = (transfer.bytes_read(), transfer.bytes_in_all());
        let percent = if all > 0 { 100.0 * read as f64 / all as f64 } else { 100.0 };
        let speed = megabytes_per_second(read, time);
        let text = format!("{} of {} bytes read, {percent:.1} %, {speed:.1} MB/s", grouped(read), grouped(all));
        // If progress cannot be printed, the run goes on regardless.
        let _ = if self.terminal {
            fmt_stderr(format_args!("\r{text}  "))
        } else {
            fmt_stderr(format_args!("{text}\n"))
        };
        self.line_open = self.terminal;
        self.next = time + Duration::from_millis(if self.terminal { 200 } else { 10_000 });
    }

    /// Called often: prints the run's progress, and ends it at its limit.
    pub fn look(&mut self, transfer: &Transfer) -> Result<(), Failure> {
        let time = self.start.elapsed();
        if self.limit.is_some_and(|limit| time >= limit) {
            return Err(failed(format!(
                "stopped after {:.1} s, its limit: {} of {} bytes read",
                time.as_secs_f64(),
                grouped(transfer.bytes_read()),
                grouped(transfer.bytes_in_all())
            )));
        }
        if time >= self.next {
            self.show(transfer, time);
        }
        Ok(())
    }

    /// The last line of the summary.
    pub fn wall_clock(&self, transfer: &Transfer) -> String {
        let time = self.start.elapsed();
        let speed = megabytes_per_second(transfer.bytes_read(), time);
        format!("wall clock: {:.3} s, {speed:.1} MB/s\n", time.as_secs_f64())
    }
}

impl Drop for Watch {
    /// What is printed next starts on a line of its own.
    fn drop(&mut self) {
        if self.line_open {
            let _ = fmt_stderr(format_args!("\n"));
        }
    }
}

fn fmt_stderr(text: fmt::Arguments<'_>) -> std::io::Result<()> {
    std::io::Write::write_fmt(&mut stderr().lock(), text)
}

/// The summary as it grows.
struct Summary {
    text: String,
}

impl Summary {
    fn row(&mut self, what: &str, hub: impl Display, gateway: impl Display) -> fmt::Result {
        writeln!(self.text, "{what:<28}{hub:>20}{gateway:>20}")
    }

    fn counts(&mut self, what: &str, hub: u64, gateway: u64) -> fmt::Result {
        self.row(what, grouped(hub), grouped(gateway))
    }

    fn head(&mut self, transfer: &Transfer, options: &Options) -> fmt::Result {
        let what = if options.file.is_some() { "a file" } else { "samples" };
        let way = if options.both {
            "each way between hub and gateway"
        } else {
            "from the hub to the gateway"
        };
        let length = grouped(transfer.sides[HUB].source.length());
        writeln!(self.text, "{length} bytes of {what} {way}")?;
        let [loss, repeat, reorder, delay] = [options.loss, options.repeat, options.reorder, options.delay].map(trimmed);
        let seed = options.seed;
        write!(self.text, "the line: {loss} % lost, {repeat} % repeated, {reorder} % held back, ")?;
        writeln!(self.text, "{delay} ms delay, seed {seed}\n")
    }

    fn traffic(&mut self, hub: &Side, gateway: &Side) -> fmt::Result {
        let (h, g) = (&hub.counts, &gateway.counts);
        self.row("", "hub", "gateway")?;
        self.counts("bytes to send", hub.source.length(), gateway.source.length())?;
        self.counts("bytes sent", hub.sent, gateway.sent)?;
        self.counts("bytes sent again, afresh", h.bytes_again, g.bytes_again)?;
        self.counts("bytes read", hub.read, gateway.read)?;
        self.counts("data packets, first", h.data, g.data)?;
        self.counts("data packets, resent", h.resent, g.resent)?;
        self.counts("state packets", h.states, g.states)?;
        self.counts("sent and lost", h.lost, g.lost)?;
        self.counts("sent and repeated", h.repeated, g.repeated)?;
        self.counts("sent and held back", h.held, g.held)?;
        self.counts("delivered", h.delivered, g.delivered)?;
        for (i, (&at_hub, &at_gateway)) in h.refused.iter().zip(&g.refused).enumerate() {
            if at_hub > 0 || at_gateway > 0 {
                self.counts(&format!("refused with {i}"), at_hub, at_gateway)?;
            }
        }
        self.counts("timeouts", h.timeouts, g.timeouts)
    }

    fn numbers(&mut self, hub: &Side, gateway: &Side) -> fmt::Result {
        let milliseconds = |span: Duration| with_decimals(span.as_nanos() as u64, MILLIONTHS, 6);
        let srtt = |side: &Side| match side.stream.round_trip() {
            Some(span) => milliseconds(span),
            None => "none".to_string(),
        };
        let (h, g) = (&hub.stream, &gateway.stream);
        self.counts("window at the end, bytes", h.window().into(), g.window().into())?;
        self.row("rto at the end, ms", milliseconds(h.rto()), milliseconds(g.rto()))?;
        self.row("srtt at the end, ms", srtt(hub), srtt(gateway))
    }

    fn checksums(&mut self, hub: &Side, gateway: &Side) -> fmt::Result {
        let text = |checksum: &Checksum| format!("{:016x}", checksum.value());
        self.row("checksum of what it sent", text(&hub.of_sent), text(&gateway.of_sent))?;
        self.row("checksum of what it read", text(&hub.of_read), text(&gateway.of_read))
    }

    fn run(&mut self, transfer: &Transfer) -> fmt::Result {
        writeln!(self.text, "\nstreams opened: {}", grouped(transfer.streams))?;
        let under_way = grouped(transfer.line.count() as u64);
        writeln!(self.text, "datagrams under way at the end: {under_way}")?;
        writeln!(self.text, "simulated time: {} s", with_decimals(transfer.clock, 1_000_000_000, 9))?;
        let ends = if transfer.done {
            "both ends are closed and done"
        } else {
            "the ends are closed and not done"
        };
        writeln!(self.text, "{ends}")
    }

    /// Whether what one side sent is what the other read; prints where not.
    fn verdict(&mut self, from: &Side, name: &str, to: &Side) -> Result<bool, fmt::Error> {
        if let Some(at) = to.wrong_at {
            writeln!(self.text, "byte {} of what the {name} sent was read as another byte", grouped(at))?;
        } else if to.read != from.source.length() || from.of_sent.value() != to.of_read.value() {
            writeln!(self.text, "what the {name} sent and what was read differ")?;
        } else {
            return Ok(true);
        }
        Ok(false)
    }
}

/// The summary without its last line, and whether all is as it should be.
pub fn summary(transfer: &Transfer, options: &Options) -> Result<(String, bool), fmt::Error> {
    let mut summary = Summary { text: String::new() };
    let (hub, gateway) = (&transfer.sides[HUB], &transfer.sides[GATEWAY]);
    summary.head(transfer, options)?;
    summary.traffic(hub, gateway)?;
    summary.numbers(hub, gateway)?;
    summary.checksums(hub, gateway)?;
    summary.run(transfer)?;
    let there = summary.verdict(hub, "hub", gateway)?;
    let back = summary.verdict(gateway, "gateway", hub)?;
    if there && back {
        summary.text.push_str("every byte is the byte that was sent\n");
    }
    Ok((summary.text, there && back && transfer.done))
}
