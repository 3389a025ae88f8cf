//! What lines to a peer cost: `replay LINES TO FROM alone|together` sends the lines of a file, and reads the answer of
//! each. `alone` waits for it before the next line, as `follow` does; `together` sends lines that store or write with
//! the next one that asks. It tells how long that took.
use std::fs::{self, File, OpenOptions};
use std::io::{self, BufRead, BufReader, Write};
use std::time::Instant;

/// Bytes that are sent together at most: fewer than a pipe holds.
const MOST_BYTES: usize = 2000;

fn main() -> io::Result<()> {
    let words: Vec<String> = std::env::args().collect();
    let [_, lines, to, from, way] = &words[..] else { return Err(io::Error::other("LINES TO FROM alone|together")) };
    let lines = fs::read(lines)?;
    let mut to = OpenOptions::new().write(true).open(to)?;
    let mut from = BufReader::new(File::open(from)?);
    let (mut sent, mut waiting, mut count, mut answer) = (Vec::new(), 0, 0, String::new());
    let begun = Instant::now();
    for line in lines.split_inclusive(|byte| *byte == b'\n') {
        sent.extend_from_slice(line);
        (waiting, count) = (waiting + 1, count + 1);
        if way == "together" && line.starts_with(b"write") && sent.len() < MOST_BYTES {
            continue;
        }
        to.write_all(&sent)?;
        sent.clear();
        for _ in 0..std::mem::take(&mut waiting) {
            answer.clear();
            from.read_line(&mut answer)?;
            assert!(answer.starts_with("OK"), "{answer}");
        }
    }
    let each = begun.elapsed().as_secs_f64() / f64::from(count) * 1e6;
    println!("{way}: {count} lines in {:.3} s, {each:.1} us each", begun.elapsed().as_secs_f64());
    Ok(())
}
