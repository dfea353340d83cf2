//! Wrong versions of the original, each one small change of its text (or of the ceilings and stand-ins in front of it, end.rs).
//! Used by build.rs, which applies them, and by `oracle mutants`, which prints how soon each is noticed.

pub struct Mutation {
    #[allow(dead_code)]
    pub name: &'static str,
    pub file: &'static str,
    /// Occurs in the file exactly once.
    pub from: &'static str,
    pub to: &'static str,
}

const fn stream(name: &'static str, from: &'static str, to: &'static str) -> Mutation {
    Mutation { name, file: "stream", from, to }
}

const fn packet(name: &'static str, from: &'static str, to: &'static str) -> Mutation {
    Mutation { name, file: "packet", from, to }
}

const fn end(name: &'static str, from: &'static str, to: &'static str) -> Mutation {
    Mutation { name, file: "end", from, to }
}

pub const ALL: &[Mutation] = &[
    // Timeouts
    stream("fails one transmit early", "transmits > UDX_MAX_TRANSMITS as usize", "transmits >= UDX_MAX_TRANSMITS as usize"),
    stream("a due packet gains two transmits", "Some(transmits + 1)", "Some(transmits + 2)"),
    stream("window shrinks to a third", "UDX_MTU.max(self.cwnd / 2)", "UDX_MTU.max(self.cwnd / 3)"),
    stream("window shrinks below 1,400", "UDX_MTU.max(self.cwnd / 2)", "self.cwnd / 2"),
    stream("next deadline after one rto", ".checked_add(2 * self.rto)", ".checked_add(self.rto)"),
    stream("lost packets stay in inflight", "self.inflight -= packet.len();", ""),
    stream("waiting packets are marked again", "if packet.waiting.load(Ordering::SeqCst) {", "if false {"),
    stream("a due timer with nothing sent", "if self.remote_acked == self.seq {", "if false {"),
    // Flushing
    stream(
        "flush leaves the window's last byte",
        "if self.inflight + packet.len() > self.cwnd {",
        "if self.inflight + packet.len() >= self.cwnd {",
    ),
    stream(
        "flush goes on past a packet that does not fit",
        "if self.inflight + packet.len() > self.cwnd {\n                    break;",
        "if self.inflight + packet.len() > self.cwnd {\n                    continue;",
    ),
    // Batches
    stream("batches of one entry more", "queue.len() == max_segments", "queue.len() > max_segments"),
    stream("batches of unequal lengths", "packet.buf.len() != segment_size ||", "packet.buf.len() < segment_size ||"),
    packet("a segment size for a batch of one", "1 => None,", "0 => None,"),
    packet("packets that have left are sent", "if !packet.skip.load(Ordering::SeqCst) {", "if true {"),
    // Acks and samples
    stream(
        "settling restarts the timer at two rto",
        "Instant::now().checked_add(self.rto).unwrap()",
        "Instant::now().checked_add(2 * self.rto).unwrap()",
    ),
    stream(
        "a sample of a resent packet",
        "packet.transmits.load(Ordering::SeqCst) == 1",
        "packet.transmits.load(Ordering::SeqCst) >= 1",
    ),
    stream("a first rttvar of a quarter", "self.rttvar = rtt / 2;", "self.rttvar = rtt / 4;"),
    stream(
        "rttvar with the new srtt",
        "let delta = self.srtt.abs_diff(rtt);",
        "let delta = ((7 * self.srtt + rtt) / 8).abs_diff(rtt);",
    ),
    stream("srtt rounded up", "(7 * self.srtt + rtt) / 8;", "(7 * self.srtt + rtt + Duration::from_nanos(7)) / 8;"),
    stream("rto of at least 999 ms", "self.rto = Duration::from_millis(1000)", "self.rto = Duration::from_millis(999)"),
    stream(
        "a waiting packet leaves inflight",
        "if !packet.waiting.load(Ordering::SeqCst) {\n            self.inflight -= packet.buf.len();",
        "{\n            self.inflight = self.inflight.saturating_sub(packet.buf.len());",
    ),
    // SACK
    stream("SACK reads the last block", "while i + 8 < buf.len()", "while i + 8 <= buf.len()"),
    stream("SACK blocks with their end", "for i in start..end {", "for i in start..end.saturating_add(1) {"),
    // Delivery
    stream(
        "data before END",
        "if packet.has_type(UDX_HEADER_END) {",
        "if packet.has_type(UDX_HEADER_END) && !packet.has_type(UDX_HEADER_DATA) {",
    ),
    stream("END leaves the remote side open", "self.state.close_remote();", ""),
    stream("data at ack is not stored", "if seq >= self.ack {", "if seq > self.ack {"),
    stream("the first of repeats is kept", "self.incoming.insert(seq, packet);", "self.incoming.entry(seq).or_insert(packet);"),
    stream(
        "received bytes without repeats",
        "self.stats.rx_bytes += packet.data_len();",
        "if packet.seq() >= self.ack { self.stats.rx_bytes += packet.data_len(); }",
    ),
    stream("an old ack grows the window", "if header.ack > self.remote_acked {", "if header.ack >= self.remote_acked {"),
    stream("slow start at 65,535", "if self.cwnd < SSTHRESH {", "if self.cwnd <= SSTHRESH {"),
    stream("the window grows by two at least", ".max(1);", ".max(2);"),
    // Reading
    stream("a read that fits exactly", "if len > buf.remaining() {", "if len >= buf.remaining() {"),
    stream("a partial read keeps its place", "packet.read_offset = end;", "packet.read_offset = start;"),
    stream("a partial read is ready", "packet.read_offset = end;", "packet.read_offset = end; did_read = true;"),
    // Sending
    stream(
        "a piece leaves the window's last byte",
        "if self.inflight + len > self.cwnd {",
        "if self.inflight + len >= self.cwnd {",
    ),
    stream(
        "a piece needs room for its header",
        "if self.inflight + len > self.cwnd {",
        "if self.inflight + len + 20 > self.cwnd {",
    ),
    stream("state packets without END", "typ |= UDX_HEADER_END;", ""),
    stream("state packets are not counted", "self.wake_driver();\n        self.stats.tx_packets += 1;", "self.wake_driver();"),
    // Closing
    stream(
        "close keeps an earlier error",
        "self.error = Some(error.into());",
        "let error = error.into(); self.error.get_or_insert(error);",
    ),
    stream("done with packets stored", "&& self.outgoing.is_empty()", ""),
    // Headers
    packet(
        "seq and ack swapped",
        "buf[12..16].copy_from_slice(&self.seq.to_le_bytes());",
        "buf[12..16].copy_from_slice(&self.ack.to_le_bytes());",
    ),
    packet("a header of 20 bytes refused", "buf.len() < UDX_HEADER_SIZE ||", "buf.len() <= UDX_HEADER_SIZE ||"),
    packet("the offset byte not written", "buf[3..4].copy_from_slice(&(self.data_offset as u8).to_le_bytes());", ""),
    // What is in front of the original
    end("a delivery at 62 state packets", "DELIVER_STATES: usize = 62", "DELIVER_STATES: usize = 63"),
    end("a close at 62 state packets refused", "CLOSE_STATES: usize = 63", "CLOSE_STATES: usize = 62"),
    end("data at read cursor + 32", "inner.read_cursor as u64 + STORE_SLOTS as u64", "inner.read_cursor as u64 + 33"),
    end("33 stored packets", "const STORE_SLOTS: u32 = 32;", "const STORE_SLOTS: u32 = 33;"),
    end(
        "the last ack instead of the largest",
        "self.largest_ack = self.largest_ack.max(packet.ack());",
        "self.largest_ack = packet.ack();",
    ),
    end("the same clock refused", "clock < self.last_clock", "clock <= self.last_clock && clock > 0"),
    end("a failed drive does not poll again", "while let Err(error) = inner.poll_drive", "if let Err(error) = inner.poll_drive"),
    end("no transmit at a take", "packet.transmits.fetch_add(1, Ordering::SeqCst);", ""),
    end(
        "time sent at a take, not at its drive",
        "shim::set_clock(self.drive_clock);",
        "shim::set_clock(self.drive_clock.saturating_sub(1));",
    ),
    end("a done drive leaves the stream open", "self.ended = true;", ""),
    end("a window past 4,294,967,295", "inner.cwnd = inner.cwnd.min(WINDOW_MAX);", ""),
    end("seq reaches 4,294,967,295 and stops one early", "if inner.seq == LAST_NUMBER {", "if inner.seq >= LAST_NUMBER - 1 {"),
    end("ack past seq taken", "if packet.ack() > inner.seq {", "if packet.ack() > inner.seq + 1 {"),
];
