//! Answers the lines of `follow` (docs/FORMATS.md, "Lines to a peer") from a PCI AHCI adapter, which Linux gives by
//! VFIO. Nothing of it is proved. docs/HARDWARE.md says how it is used.
//!
//! `host FUNCTION FRAMES TO FROM ..`: FUNCTION is as `0000:00:17.0`, and bound to vfio-pci; FRAMES frames of 4096
//! bytes, from bus address 0 on, are its memory; TO and FROM are the pipes that `follow` writes and reads. `--port N`
//! shows the adapter's port N as port 0. `--serial TEXT` has the disk there with this serial number told as
//! `IMAGEDISK`, which `follow` knows, and no other. `--registers HEX` says where the registers begin for `follow`
//! (f0000000). `--shows NAME:MASK:VALUE` tells of a difference that nobody knew: these bits of a register are shown so.
//!
//! `host describe DISK` prints the configuration for a disk that Linux has, and on standard error its function, port,
//! number of sectors and serial number. `host unused DEVICE` says whether nobody has the block device.
mod adapter;
mod bus;
mod describe;
mod differences;
mod function;
mod hand_over;
mod lines;
mod page;
mod registers;
#[cfg(test)]
mod software_adapter;
mod system;
#[cfg(test)]
mod tests;
mod words;

use adapter::Adapter;
use function::Function;
use lines::Host;
use std::fs::{File, OpenOptions};
use std::process::ExitCode;
use std::time::Instant;
use words::{Asked, Serve};

const FRAME: usize = 4096;

fn text(error: std::io::Error) -> String {
    error.to_string()
}

/// Has the adapter, answers lines until there are no more, and gives it back.
fn serve(words: Serve) -> Result<(), String> {
    let (function, registers) = Function::take(&words.function, FRAME * words.frames).map_err(text)?;
    let mut adapter = Adapter::new(registers, words.port, words.as_told);
    adapter.hand_over()?;
    adapter.tell("handed over");
    adapter.tell_configuration();
    let mut host = Host::new(adapter, words.registers, words.serial);
    // In the order in which `follow` opens them.
    let to = File::open(&words.to).map_err(|error| format!("{}: {error}", words.to))?;
    let from = OpenOptions::new().write(true).open(&words.from).map_err(|error| format!("{}: {error}", words.from))?;
    function.enable_bus_master().map_err(text)?;
    let begun = Instant::now();
    let served = host.serve(&function.memory, to, from);
    let seconds = begun.elapsed().as_secs_f64();
    host.adapter.tell("at the end");
    host.adapter.quiet();
    function.disable_bus_master().map_err(text)?;
    eprintln!("host: {}", host.summary(seconds));
    eprintln!("host: {}", host.adapter.tally.summary());
    served.map_err(text)
}

fn describe(disk: &str) -> Result<(), String> {
    let described = describe::describe(disk)?;
    print!("{}", described.configuration());
    eprintln!("{} {} {} {}", described.function, described.port, described.sectors(), described.serial());
    Ok(())
}

fn main() -> ExitCode {
    let words: Vec<String> = std::env::args().skip(1).collect();
    let done = words::parse(&words).and_then(|asked| match asked {
        Asked::Serve(words) => serve(words),
        Asked::Describe(disk) => describe(&disk),
        Asked::Unused(device) => describe::is_unused(&device),
    });
    match done {
        Ok(()) => ExitCode::SUCCESS,
        Err(why) => {
            eprintln!("host: {why}");
            ExitCode::FAILURE
        }
    }
}
