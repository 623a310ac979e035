// The same decoder in plain Rust, to measure against: same table method, same text, no crates.
use std::fs::File;
use std::io::{self, BufWriter, Read, Write};

const NAMES: &[(u8, &str)] = &[
    (0x00, "ERROR"),
    (0x06, "ACK"),
    (0x15, "NAK"),
    (0x20, "REQ_SEND_FRAME"),
    (0x21, "RES_SEND_FRAME"),
    (0x22, "REQ_SEND_MESSAGE"),
    (0x24, "REQ_SEND_BROADCAST_RESPONSE"),
    (0x26, "REQ_SEND_POLLING"),
    (0x28, "REQ_SEND_BROADCAST"),
    (0x2A, "REQ_SEND_BROADCAST_MESSAGE"),
    (0x30, "RECEIVED_FRAME"),
    (0x31, "RECEPTION_ERROR"),
    (0x32, "RECEIVED_FRAME_POLLING"),
    (0x34, "RECEIVED_BROADCAST_RESPONSE"),
    (0x35, "RECEIVED_FRAME_RELAYED"),
    (0x36, "RECEIVED_MULTIFRAME"),
    (0x37, "END_MESSAGE_EXCHANGE"),
    (0x38, "RECEIVED_BROADCAST_FRAME"),
    (0x40, "REQ_WRITE_RADIO_PARAM"),
    (0x41, "RES_WRITE_RADIO_PARAM"),
    (0x42, "REQ_CHANGE_UART_BDRATE"),
    (0x43, "RES_CHANGE_UART_BDRATE"),
    (0x44, "REQ_CHANGE_TX_POWER"),
    (0x45, "RES_CHANGE_TX_POWER"),
    (0x46, "REQ_WRITE_AUTOCORR_STATE"),
    (0x47, "RES_WRITE_AUTOCORR_STATE"),
    (0x50, "REQ_READ_RADIO_PARAM"),
    (0x51, "RES_READ_RADIO_PARAM"),
    (0x54, "REQ_READ_TX_POWER"),
    (0x55, "RES_READ_TX_POWER"),
    (0x5A, "REQ_READ_AUTOCORR_STATE"),
    (0x5B, "RES_READ_AUTOCORR_STATE"),
    (0x60, "REQ_SELECT_CHANNEL"),
    (0x61, "RES_SELECT_CHANNEL"),
    (0x62, "REQ_READ_CHANNEL"),
    (0x63, "RES_READ_CHANNEL"),
    (0x64, "REQ_SELECT_PHYCONFIG"),
    (0x65, "RES_SELECT_PHYCONFIG"),
    (0x66, "REQ_READ_PHYCONFIG"),
    (0x67, "RES_READ_PHYCONFIG"),
    (0x68, "REQ_READ_REMOTE_RSSI"),
    (0x69, "RES_READ_REMOTE_RSSI"),
    (0x6A, "REQ_READ_LOCAL_RSSI"),
    (0x6B, "RES_READ_LOCAL_RSSI"),
    (0x80, "REQ_SEND_SERVICE"),
    (0x81, "RES_SEND_SERVICE"),
    (0x82, "SERVICE_RESPONSE"),
    (0xA0, "REQ_FIRMWARE_VERSION"),
    (0xA1, "RES_FIRMWARE_VERSION"),
    (0xB0, "MODE_TEST"),
];

fn table() -> [u16; 256] {
    let mut table = [0u16; 256];
    for (i, entry) in table.iter_mut().enumerate() {
        let mut value = i as u16;
        for _ in 0..8 {
            value = if value & 1 == 1 { (value >> 1) ^ 0x8408 } else { value >> 1 };
        }
        *entry = value;
    }
    table
}

fn name(cmd: u8) -> &'static str {
    NAMES.iter().find(|(number, _)| *number == cmd).map_or("unknown", |(_, name)| name)
}

#[derive(Default)]
struct Tally {
    bytes: u64,
    used: u64,
    drops: [u64; 3],
}

const WHY: [&str; 3] = ["L wrong length", "E no end byte", "C wrong check value"];

struct Decoder<W: Write> {
    table: [u16; 256],
    // a candidate that began in an earlier stretch
    held: Vec<u8>,
    place: u64,
    tally: Tally,
    frames: [u64; 256],
    out: W,
}

impl<W: Write> Decoder<W> {
    fn crc(&self, bytes: &[u8]) -> u16 {
        bytes.iter().fold(0, |crc, b| (crc >> 8) ^ self.table[((crc ^ *b as u16) & 0xFF) as usize])
    }

    fn stretch(&mut self, bytes: &[u8]) -> io::Result<()> {
        self.tally.bytes += bytes.len() as u64;
        let mut joined = std::mem::take(&mut self.held);
        joined.extend_from_slice(bytes);
        let used = self.scan(&joined)?;
        self.place += used as u64;
        joined.drain(..used);
        self.held = joined;
        Ok(())
    }

    // how many bytes are done with
    fn scan(&mut self, bytes: &[u8]) -> io::Result<usize> {
        let mut at = 0;
        loop {
            match bytes[at..].windows(2).position(|pair| pair == [0xFF, 0x02]) {
                Some(start) => at += start,
                None => return Ok(bytes.len() - usize::from(bytes[at..].last() == Some(&0xFF))),
            }
            let Some(&length) = bytes.get(at + 2) else { return Ok(at) };
            let length = length as usize;
            if !(4..=254).contains(&length) {
                self.drop(at, 0, 3)?;
                at += 3;
                continue;
            }
            let Some(candidate) = bytes.get(at..at + 3 + length) else { return Ok(at) };
            let body = &candidate[3..];
            if body[length - 1] != 0x03 {
                self.drop(at, 1, candidate.len())?;
            } else if self.crc(&candidate[2..length]) != u16::from_le_bytes([body[length - 3], body[length - 2]]) {
                self.drop(at, 2, candidate.len())?;
            } else {
                self.frame(at, body[0], &body[1..length - 3])?;
            }
            at += candidate.len();
        }
    }

    fn frame(&mut self, at: usize, cmd: u8, data: &[u8]) -> io::Result<()> {
        self.frames[cmd as usize] += 1;
        self.tally.used += data.len() as u64 + 7;
        write!(self.out, "{:08X}  frame  {cmd:02X} {}", self.place + at as u64, name(cmd))?;
        if !data.is_empty() {
            const DIGITS: &[u8; 16] = b"0123456789ABCDEF";
            let mut text = [b' '; 751];
            for (b, place) in data.iter().zip(text[1..].chunks_exact_mut(3)) {
                place[1] = DIGITS[(b >> 4) as usize];
                place[2] = DIGITS[(b & 15) as usize];
            }
            self.out.write_all(&text[..1 + 3 * data.len()])?;
        }
        self.out.write_all(b"\n")
    }

    fn drop(&mut self, at: usize, cause: usize, size: usize) -> io::Result<()> {
        self.tally.drops[cause] += 1;
        self.tally.used += size as u64;
        writeln!(self.out, "{:08X}  drop   {}, {size} bytes", self.place + at as u64, WHY[cause])
    }

    fn summary(&mut self) -> io::Result<()> {
        let held = self.held.len() as u64;
        writeln!(self.out, "bytes: {}", self.tally.bytes)?;
        writeln!(self.out, "frames: {}", self.frames.iter().sum::<u64>())?;
        for (cmd, count) in self.frames.iter().enumerate().filter(|(_, count)| **count > 0) {
            writeln!(self.out, "  {cmd:02X} {}: {count}", name(cmd as u8))?;
        }
        writeln!(self.out, "drops: {}", self.tally.drops.iter().sum::<u64>())?;
        for (why, count) in WHY.iter().zip(self.tally.drops) {
            writeln!(self.out, "  {why}: {count}")?;
        }
        writeln!(self.out, "bytes of noise: {}", self.tally.bytes - self.tally.used - held)?;
        writeln!(self.out, "bytes of an unfinished candidate: {held}")?;
        self.out.flush()
    }
}

fn main() -> io::Result<()> {
    let mut input = File::open(std::env::args().nth(1).expect("a file"))?;
    let out = BufWriter::with_capacity(1 << 16, io::stdout().lock());
    let mut decoder = Decoder { table: table(), held: Vec::new(), place: 0, tally: Tally::default(), frames: [0; 256], out };
    let mut buffer = vec![0u8; 1 << 16];
    loop {
        let count = input.read(&mut buffer)?;
        if count == 0 {
            return decoder.summary();
        }
        decoder.stretch(&buffer[..count])?;
    }
}
