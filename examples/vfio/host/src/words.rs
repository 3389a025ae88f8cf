//! The words of the program.
use crate::differences::AsTold;
use crate::registers::MOST_PORTS;
use std::str::FromStr;

pub const USAGE: &str =
    "host FUNCTION FRAMES TO FROM [--port N] [--serial TEXT] [--registers HEX] [--shows NAME:MASK:VALUE]..
host describe DISK
host unused DEVICE";

/// What the program is asked for.
#[derive(Debug, PartialEq, Eq)]
pub enum Asked {
    Serve(Serve),
    Describe(String),
    Unused(String),
}

/// To answer lines.
#[derive(Debug, PartialEq, Eq)]
pub struct Serve {
    pub function: String,
    /// Frames of 4096 bytes, from bus address 0 on.
    pub frames: usize,
    /// The files from which lines come and to which answers go.
    pub to: String,
    pub from: String,
    /// The adapter's port that is port 0 for `follow`.
    pub port: usize,
    /// The serial number of the disk that is told as `IMAGEDISK`.
    pub serial: Option<String>,
    /// Where the registers begin for `follow`.
    pub registers: u64,
    pub as_told: Vec<AsTold>,
}

fn parsed<T: FromStr>(word: &str, what: &str) -> Result<T, String> {
    word.parse().map_err(|_| format!("{word} is no {what}\n{USAGE}"))
}

pub fn parse(words: &[String]) -> Result<Asked, String> {
    let words: Vec<&str> = words.iter().map(String::as_str).collect();
    match words[..] {
        ["describe", disk] => Ok(Asked::Describe(disk.into())),
        ["unused", device] => Ok(Asked::Unused(device.into())),
        [function, frames, to, from, ref options @ ..] if options.len() % 2 == 0 => {
            let mut serve = Serve {
                function: function.into(),
                frames: parsed(frames, "number of frames")?,
                to: to.into(),
                from: from.into(),
                port: 0,
                serial: None,
                registers: 0xf000_0000,
                as_told: Vec::new(),
            };
            options.chunks(2).try_for_each(|option| serve.set(option[0], option[1]))?;
            serve.is_possible()?;
            Ok(Asked::Serve(serve))
        }
        _ => Err(USAGE.into()),
    }
}

impl Serve {
    fn set(&mut self, name: &str, value: &str) -> Result<(), String> {
        match name {
            "--port" => self.port = parsed(value, "port")?,
            "--serial" => self.serial = Some(value.into()),
            "--registers" => {
                self.registers = u64::from_str_radix(value, 16).map_err(|_| format!("{value} is no address"))?;
            }
            "--shows" => self.as_told.push(value.parse()?),
            _ => return Err(format!("{name} is no word of this program\n{USAGE}")),
        }
        Ok(())
    }

    fn is_possible(&self) -> Result<(), String> {
        if !(77..=1024).contains(&self.frames) || self.registers < 4096 * self.frames as u64 {
            return Err("there are 77 to 1024 frames, and the registers begin behind them".into());
        }
        if self.port >= MOST_PORTS {
            return Err(format!("ports are 0 to {}", MOST_PORTS - 1));
        }
        Ok(())
    }
}

#[cfg(test)]
mod tests {
    use super::*;

    fn asked(words: &str) -> Result<Asked, String> {
        parse(&words.split(' ').map(String::from).collect::<Vec<_>>())
    }

    #[test]
    fn words_are_read() {
        let Ok(Asked::Serve(serve)) = asked("0000:00:1f.2 160 to from --port 5 --serial SD-123 --shows VS:1:0") else {
            panic!("not read");
        };
        assert_eq!((serve.port, serve.serial.as_deref(), serve.as_told.len()), (5, Some("SD-123"), 1));
        assert_eq!(asked("unused /dev/sda"), Ok(Asked::Unused("/dev/sda".into())));
        for words in ["f 76 to from", "f 160 to from --port 32", "f 160 to from --port", "f 160 to", "f x to from"] {
            assert!(asked(words).is_err(), "{words}");
        }
    }
}
