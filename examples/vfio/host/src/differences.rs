//! What the host shows in another form than the adapter does, and what somebody has it show otherwise. What `follow`
//! passes over it tells itself, by the names of docs/QEMU.md.
use crate::registers::{cap, cause, detection, ghc, sata_error, task_file, PortRegister, Register};
use std::collections::BTreeMap;
use std::str::FromStr;

/// A duty by which the host shows a register otherwise than the adapter does (docs/PORTING.md).
#[derive(Clone, Copy, Debug, PartialEq, Eq, PartialOrd, Ord)]
pub enum Otherwise {
    /// CAP or PI, as they were before a reset that lost them (P-10).
    KeptCapabilities,
    /// PI of a port that isn't there, which is shown as one without a disk (P-11).
    AbsentPort,
    /// No link, though there is one: the disk's first FIS hasn't come, or the link isn't still yet (P-14, P-21).
    LinkNotReady,
    /// PxSERR.X or N, and their causes, which the host cleared while it waited for that FIS (P-14).
    HiddenExchange,
    /// PxTFD of a command that failed, but for BSY, DRQ, ERR and the error, as the definitions have it (P-18).
    FailedStatus,
    /// IFS for OFS, and HBFS for HBDS (P-19).
    FatalCause,
    /// A slot of a command that ended with DF alone, which stays set, with IFS (P-17).
    DeviceFault,
    /// A slot of a command that was kept back from a disk that was exchanged (P-23).
    KeptBack,
    /// All ones, since the adapter has gone (P-15).
    Gone,
    /// What the host's word `NAME:MASK:VALUE` has it show.
    AsTold,
}

/// How often which difference was made. Each is told as it is met first.
#[derive(Default)]
pub struct Tally {
    otherwise: BTreeMap<Otherwise, u64>,
}

impl Tally {
    pub fn shows(&mut self, otherwise: Otherwise, register: Register, value: u32, shown: u32) {
        let count = self.otherwise.entry(otherwise).or_default();
        *count += 1;
        if *count == 1 {
            eprintln!("host: {otherwise:?}: {register:?} is {value:08x}h, and is shown as {shown:08x}h");
        }
    }

    /// What was shown otherwise, in one line.
    pub fn summary(&self) -> String {
        let otherwise = self.otherwise.iter().map(|(name, count)| format!("{name:?} {count}"));
        format!("shown otherwise: {}", otherwise.collect::<Vec<_>>().join(", "))
    }
}

/// Bits of a register that are shown with given values, whatever the adapter shows: how the host is told of a
/// difference that nobody knew. Bits that the server decides by can't be.
#[derive(Clone, Copy, Debug, PartialEq, Eq)]
pub struct AsTold {
    name: &'static str,
    mask: u32,
    value: u32,
}

/// The registers that may be shown otherwise, and of each the bits that `follow` compares and the server decides by.
const DECIDING: [(&str, u32); 8] = [
    ("CAP", cap::SNCQ | cap::NCS),
    ("GHC", ghc::HR),
    ("PI", 0xf),
    ("VS", 0),
    ("PxIS", !0xb),
    ("PxTFD", task_file::ERROR | task_file::BSY | task_file::DF | task_file::DRQ | task_file::ERR),
    ("PxSSTS", detection::MASK),
    ("PxSERR", sata_error::X | sata_error::N),
];

fn name_of(register: Register) -> Option<&'static str> {
    Some(match register {
        Register::Cap => "CAP",
        Register::Ghc => "GHC",
        Register::Pi => "PI",
        Register::Vs => "VS",
        Register::Port(_, PortRegister::Is) => "PxIS",
        Register::Port(_, PortRegister::Tfd) => "PxTFD",
        Register::Port(_, PortRegister::Ssts) => "PxSSTS",
        Register::Port(_, PortRegister::Serr) => "PxSERR",
        _ => return None,
    })
}

impl AsTold {
    pub fn shown(&self, register: Register, value: u32) -> u32 {
        if name_of(register) == Some(self.name) {
            value & !self.mask | self.value & self.mask
        } else {
            value
        }
    }
}

impl FromStr for AsTold {
    type Err = String;

    /// `NAME:MASK:VALUE`, in hexadecimal digits, as `PxTFD:56:50`.
    fn from_str(word: &str) -> Result<AsTold, String> {
        let wrong = || format!("{word}: NAME:MASK:VALUE is wanted, in hexadecimal digits, as PxTFD:56:50");
        let [name, mask, value] = word.split(':').collect::<Vec<_>>()[..] else { return Err(wrong()) };
        let mask = u32::from_str_radix(mask, 16).map_err(|_| wrong())?;
        let value = u32::from_str_radix(value, 16).map_err(|_| wrong())?;
        let row = DECIDING.iter().find(|(it, _)| *it == name);
        let (name, deciding) = row.ok_or_else(|| format!("{word}: the server decides by all of {name}"))?;
        if mask & deciding != 0 {
            return Err(format!(
                "{word}: the server decides by {:x}h of {name}, which stay as they are",
                mask & deciding
            ));
        }
        Ok(AsTold { name, mask, value })
    }
}

/// The fatal causes of PxIS as the definitions have them: no step of theirs sets OFS or HBDS (P-19; 3.3.5).
pub fn fatal_causes(value: u32) -> u32 {
    let mut shown = value & !(cause::OFS | cause::HBDS);
    if value & cause::OFS != 0 {
        shown |= cause::IFS;
    }
    if value & cause::HBDS != 0 {
        shown |= cause::HBFS;
    }
    shown
}

/// The status of a command that failed as the definitions have it: 41h, but for BSY and DRQ (P-18; 3.3.8).
pub fn failed_status(value: u32) -> u32 {
    if value & task_file::ERR == 0 {
        return value;
    }
    value & (task_file::ERROR | task_file::BSY | task_file::DRQ | task_file::ERR) | task_file::DRDY
}

#[cfg(test)]
mod tests {
    use super::*;

    const TFD: Register = Register::Port(0, PortRegister::Tfd);

    #[test]
    fn a_new_difference_is_shown_as_told() {
        let told: AsTold = "PxTFD:56:50".parse().unwrap();
        assert_eq!(told.shown(TFD, 0x0401), 0x0451);
        assert_eq!(told.shown(Register::Vs, 0x0401), 0x0401);
    }

    #[test]
    fn what_the_server_decides_by_is_not_shown_otherwise() {
        let refused = ["PxTFD:1:0", "PxTFD:20:0", "PxCI:1:0", "PxSACT:1:0", "PxSIG:1:0", "PxCMD:8000:0", "CAP:1f00:0"];
        for word in refused.into_iter().chain(["GHC:1:0", "PI:1:1", "PxIS:40000000:0", "PxSSTS:3:3", "PxSERR:10000:0"])
        {
            assert!(word.parse::<AsTold>().unwrap_err().contains("the server decides by"), "{word}");
        }
        for word in ["", "VS", "VS:x:0", "VS:1", "VS:1:1:1"] {
            assert!(word.parse::<AsTold>().unwrap_err().contains("is wanted"), "{word}");
        }
    }
}
