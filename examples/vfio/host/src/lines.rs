//! The lines of `follow` (docs/FORMATS.md, "Lines to a peer"), and their answers.
use crate::adapter::Adapter;
use crate::bus::Bus;
use crate::page;
use crate::registers::{Register, MOST_BYTES as MOST_REGISTER_BYTES};
use crate::system::Mapping;
use std::io::{self, BufRead, BufReader, Read, Write};

/// Bytes of memory that a line carries at most.
const MOST_BYTES: usize = 64;
// Where the server keeps the command of slot 0, and the pages that the disk sends, of port 0 (docs/ARCHITECTURE.md,
// section 7): the third byte of a Register FIS is the command.
const COMMAND: usize = 0x1002;
const PAGE: usize = 0x1_2000;
const IDENTIFY_DEVICE: u8 = 0xec;
/// What `follow` calls the disk of port 0.
const TOLD: &str = "IMAGEDISK";

/// What a line asks.
#[derive(Debug, PartialEq, Eq)]
enum Line {
    Read(Register),
    Write(Register, u32),
    Load(usize, usize),
    Store(usize, Vec<u8>),
}

fn number(word: &str) -> Option<u64> {
    u64::from_str_radix(word.strip_prefix("0x")?, 16).ok()
}

/// The bytes of pairs of digits.
fn bytes(word: &str, count: usize) -> Option<Vec<u8>> {
    let digits = word.strip_prefix("0x")?.as_bytes();
    if digits.len() != 2 * count {
        return None;
    }
    let pair = |pair: &[u8]| u8::from_str_radix(std::str::from_utf8(pair).ok()?, 16).ok();
    digits.chunks(2).map(pair).collect()
}

/// How many accesses were made.
#[derive(Default)]
struct Counts {
    reads: u64,
    writes: u64,
    loads: u64,
    stores: u64,
}

/// An adapter and its memory, as lines reach them.
pub struct Host<B> {
    pub adapter: Adapter<B>,
    /// Where the registers begin, for `follow`.
    registers: u64,
    /// The serial number of the disk that is told as `IMAGEDISK`.
    serial: Option<String>,
    counts: Counts,
}

impl<B: Bus> Host<B> {
    pub fn new(adapter: Adapter<B>, registers: u64, serial: Option<String>) -> Host<B> {
        Host { adapter, registers, serial, counts: Counts::default() }
    }

    fn register(&self, word: &str) -> Option<Register> {
        let at = usize::try_from(number(word)?.checked_sub(self.registers)?).ok()?;
        let length = self.adapter.length().min(MOST_REGISTER_BYTES);
        (at % 4 == 0 && at < length).then(|| Register::at(at))
    }

    fn line(&self, text: &str) -> Option<Line> {
        let words: Vec<&str> = text.split_ascii_whitespace().collect();
        let place = |word| usize::try_from(number(word)?).ok();
        let count = |word| place(word).filter(|count| *count <= MOST_BYTES);
        match words[..] {
            ["readl", at] => Some(Line::Read(self.register(at)?)),
            ["writel", at, value] => Some(Line::Write(self.register(at)?, u32::try_from(number(value)?).ok()?)),
            ["read", at, bytes] => Some(Line::Load(place(at)?, count(bytes)?)),
            ["write", at, of, digits] => Some(Line::Store(place(at)?, bytes(digits, count(of)?)?)),
            _ => None,
        }
    }

    /// Does what a line asks, and writes its answer; `None` where it isn't one.
    fn answer(&mut self, text: &str, memory: &Mapping, out: &mut Vec<u8>) -> Option<()> {
        match self.line(text)? {
            Line::Read(register) => {
                self.counts.reads += 1;
                writeln!(out, "OK 0x{:016x}", self.adapter.read(register)).ok()?;
            }
            Line::Write(register, value) => {
                self.counts.writes += 1;
                self.adapter.write(register, value);
                out.extend_from_slice(b"OK\n");
            }
            Line::Load(at, count) => {
                self.counts.loads += 1;
                self.tell_as_known(at, memory);
                let mut loaded = [0; MOST_BYTES];
                let loaded = &mut loaded[..count];
                memory.load(at, loaded)?;
                out.extend_from_slice(b"OK 0x");
                for byte in loaded {
                    write!(out, "{byte:02x}").ok()?;
                }
                out.push(b'\n');
            }
            Line::Store(at, bytes) => {
                self.counts.stores += 1;
                memory.store(at, &bytes)?;
                out.extend_from_slice(b"OK\n");
            }
        }
        Some(())
    }

    /// Before the disk's page is loaded, which it has just sent: the disk that was named is told as the one that
    /// `follow` knows, and any other one as it is, so that a configuration that names `IMAGEDISK` leaves it alone.
    fn tell_as_known(&mut self, at: usize, memory: &Mapping) {
        let (mut command, mut sent) = ([0], [0; page::BYTES]);
        let is_page = at == PAGE && memory.load(COMMAND, &mut command).is_some() && command[0] == IDENTIFY_DEVICE;
        if !is_page || memory.load(PAGE, &mut sent).is_none() {
            return;
        }
        let own = page::serial(&sent);
        match &self.serial {
            Some(serial) if *serial == own => {
                page::rename(&mut sent, TOLD);
                // It was loaded from there, so that there is room.
                memory.store(PAGE, &sent);
                eprintln!("host: the disk {own} is told as {TOLD}");
            }
            Some(serial) if own != TOLD => eprintln!("host: the disk in port 0 is {own}, and not {serial}"),
            _ => {}
        }
        let (depth, ncq, trim) = (page::depth(&sent), page::has_ncq(&sent), page::trim(&sent));
        eprintln!("host: the disk has depth = {depth}, ncq = {ncq}, trim = {trim:?}, {} sectors", page::sectors(&sent));
    }

    /// Answers lines until there are no more. Where several have come, their answers are written together.
    pub fn serve(&mut self, memory: &Mapping, to: impl Read, mut from: impl Write) -> io::Result<()> {
        let mut lines = BufReader::new(to);
        let (mut line, mut out) = (String::new(), Vec::new());
        loop {
            line.clear();
            if lines.read_line(&mut line)? == 0 {
                return Ok(());
            }
            let begun = out.len();
            if self.answer(&line, memory, &mut out).is_none() {
                out.truncate(begun);
                out.extend_from_slice(b"ERR\n");
                eprintln!("host: no line of a peer: {}", line.trim_end());
            }
            if lines.buffer().is_empty() {
                from.write_all(&out)?;
                out.clear();
            }
        }
    }

    /// What was done, in a line.
    pub fn summary(&self, seconds: f64) -> String {
        let Counts { reads, writes, loads, stores } = self.counts;
        let lines = reads + writes + loads + stores;
        let (naps, napped) = (self.adapter.naps, self.adapter.napped.as_secs_f64());
        format!(
            "{lines} lines in {seconds:.3} s: {reads} reads, {writes} writes, {loads} loads, {stores} stores; \
             {naps} naps of {napped:.3} s"
        )
    }
}
