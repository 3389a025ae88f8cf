//! What a line and its answer cost by themselves, without an adapter: `ways LINES` sends the lines of a file to another
//! thread, and waits for the answer of each: over pipes, as `follow` and `host` do; and by memory that both have, where
//! who waits sleeps until it is woken, or looks again and again. It tells how long each took.
use std::io::{self, BufRead, BufReader, Write};
use std::sync::atomic::{AtomicBool, Ordering};
use std::sync::{Condvar, Mutex};
use std::time::Instant;
use std::{fs, hint, thread};

const ANSWER: &[u8] = b"OK 0x0000000000000000\n";

/// Over two pipes.
fn over_pipes(lines: &[&[u8]]) -> io::Result<()> {
    let (asked, mut to) = io::pipe()?;
    let (from, mut answers) = io::pipe()?;
    let peer = thread::spawn(move || -> io::Result<()> {
        let (mut asked, mut line) = (BufReader::new(asked), Vec::new());
        while asked.read_until(b'\n', &mut line)? != 0 {
            answers.write_all(ANSWER)?;
            line.clear();
        }
        Ok(())
    });
    let (mut from, mut answer) = (BufReader::new(from), Vec::new());
    for line in lines {
        to.write_all(line)?;
        answer.clear();
        from.read_until(b'\n', &mut answer)?;
    }
    drop(to);
    peer.join().map_err(|_| io::Error::other("the peer failed"))?
}

/// Memory that both have: a line or its answer, and whether the line waits for its answer.
#[derive(Default)]
struct Shared {
    bytes: Mutex<Vec<u8>>,
    is_asked: AtomicBool,
    turned: Condvar,
}

impl Shared {
    /// Waits until a line is asked, or is answered; puts these bytes in, and has the other go on.
    fn put(&self, is_asked: bool, sleeps: bool, bytes: &[u8]) {
        while !sleeps && self.is_asked.load(Ordering::Acquire) != is_asked {
            hint::spin_loop();
        }
        let mut place = self.bytes.lock().unwrap();
        while self.is_asked.load(Ordering::Acquire) != is_asked {
            place = self.turned.wait(place).unwrap();
        }
        place.clear();
        place.extend_from_slice(bytes);
        self.is_asked.store(!is_asked, Ordering::Release);
        drop(place);
        if sleeps {
            self.turned.notify_one();
        }
    }
}

/// By memory that both have.
fn by_memory(lines: &[&[u8]], sleeps: bool) {
    let shared = Shared::default();
    thread::scope(|scope| {
        scope.spawn(|| lines.iter().for_each(|_| shared.put(true, sleeps, ANSWER)));
        lines.iter().for_each(|line| shared.put(false, sleeps, line));
    });
}

fn main() -> io::Result<()> {
    let Some(name) = std::env::args().nth(1) else { return Err(io::Error::other("LINES")) };
    let text = fs::read(name)?;
    let lines: Vec<&[u8]> = text.split_inclusive(|byte| *byte == b'\n').collect();
    for way in ["over pipes", "by memory, asleep", "by memory, looking"] {
        let begun = Instant::now();
        match way {
            "over pipes" => over_pipes(&lines)?,
            _ => by_memory(&lines, way == "by memory, asleep"),
        }
        let each = begun.elapsed().as_secs_f64() / lines.len() as f64 * 1e6;
        println!("{way}: {} lines in {:.3} s, {each:.2} us each", lines.len(), begun.elapsed().as_secs_f64());
    }
    Ok(())
}
