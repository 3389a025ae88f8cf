//! The registers of an AHCI adapter, and the bits of them that the host uses. Sections are of AHCI 1.3.1.

/// Where the registers of port 0 begin, and how many bytes each port's have (3.3).
const PORTS_AT: usize = 0x100;
const PORT_BYTES: usize = 0x80;
/// Ports that an adapter can have (3.1.4).
pub const MOST_PORTS: usize = 32;
/// How far the registers of all ports reach.
pub const MOST_BYTES: usize = PORTS_AT + MOST_PORTS * PORT_BYTES;

/// A register of 32 bits.
#[derive(Clone, Copy, Debug, PartialEq, Eq)]
pub enum Register {
    /// Host capabilities (3.1.1).
    Cap,
    /// Global host control (3.1.2).
    Ghc,
    /// Interrupt status (3.1.3).
    Is,
    /// Ports implemented (3.1.4).
    Pi,
    /// AHCI version (3.1.5).
    Vs,
    /// Host capabilities, extended (3.1.10).
    Cap2,
    /// BIOS/OS hand-off control (3.1.11).
    Bohc,
    /// One that the host knows nothing of.
    Other(usize),
    Port(usize, PortRegister),
}

/// A register of a port (3.3).
#[derive(Clone, Copy, Debug, PartialEq, Eq)]
pub enum PortRegister {
    /// Command list base, and its upper half (3.3.1, 3.3.2).
    Clb,
    Clbu,
    /// Received FISes' base, and its upper half (3.3.3, 3.3.4).
    Fb,
    Fbu,
    /// Interrupt status (3.3.5) and enable (3.3.6).
    Is,
    Ie,
    /// Command and status (3.3.7).
    Cmd,
    /// Task file data (3.3.8).
    Tfd,
    /// Signature (3.3.9).
    Sig,
    /// SATA status (3.3.10), control (3.3.11) and error (3.3.12).
    Ssts,
    Sctl,
    Serr,
    /// SATA active (3.3.13).
    Sact,
    /// Command issue (3.3.14).
    Ci,
    /// One that the host knows nothing of.
    Other(usize),
}

impl PortRegister {
    /// Those with a name, and where they stand behind the beginning of the port's.
    pub const NAMED: [(PortRegister, usize); 14] = [
        (PortRegister::Clb, 0x00),
        (PortRegister::Clbu, 0x04),
        (PortRegister::Fb, 0x08),
        (PortRegister::Fbu, 0x0c),
        (PortRegister::Is, 0x10),
        (PortRegister::Ie, 0x14),
        (PortRegister::Cmd, 0x18),
        (PortRegister::Tfd, 0x20),
        (PortRegister::Sig, 0x24),
        (PortRegister::Ssts, 0x28),
        (PortRegister::Sctl, 0x2c),
        (PortRegister::Serr, 0x30),
        (PortRegister::Sact, 0x34),
        (PortRegister::Ci, 0x38),
    ];

    fn at(offset: usize) -> PortRegister {
        let found = Self::NAMED.iter().find(|(_, place)| *place == offset);
        found.map_or(PortRegister::Other(offset), |(register, _)| *register)
    }

    fn offset(self) -> usize {
        match self {
            PortRegister::Other(offset) => offset,
            named => Self::NAMED.iter().find(|(it, _)| *it == named).map_or(0, |(_, place)| *place),
        }
    }
}

impl Register {
    /// The adapter's own with a name, and where they stand.
    pub const NAMED: [(Register, usize); 7] = [
        (Register::Cap, 0x00),
        (Register::Ghc, 0x04),
        (Register::Is, 0x08),
        (Register::Pi, 0x0c),
        (Register::Vs, 0x10),
        (Register::Cap2, 0x24),
        (Register::Bohc, 0x28),
    ];

    /// The register so many bytes behind the adapter's base.
    pub fn at(offset: usize) -> Register {
        if let Some(behind) = offset.checked_sub(PORTS_AT) {
            return Register::Port(behind / PORT_BYTES, PortRegister::at(behind % PORT_BYTES));
        }
        let found = Self::NAMED.iter().find(|(_, place)| *place == offset);
        found.map_or(Register::Other(offset), |(register, _)| *register)
    }

    /// How many bytes it stands behind the adapter's base.
    pub fn offset(self) -> usize {
        match self {
            Register::Other(offset) => offset,
            Register::Port(port, register) => PORTS_AT + PORT_BYTES * port + register.offset(),
            named => Self::NAMED.iter().find(|(it, _)| *it == named).map_or(0, |(_, place)| *place),
        }
    }
}

/// Bits of CAP (3.1.1).
pub mod cap {
    /// Native command queuing.
    pub const SNCQ: u32 = 1 << 30;
    /// How many command slots there are, less one.
    pub const NCS: u32 = 0x1f << 8;
}

/// Bits of GHC (3.1.2).
pub mod ghc {
    /// The adapter is used by AHCI alone.
    pub const AE: u32 = 1 << 31;
    /// The adapter is being reset.
    pub const HR: u32 = 1;
}

/// CAP2.BOH: there is a hand-off (3.1.10).
pub const BOH: u32 = 1;

/// Bits of BOHC (3.1.11).
pub mod bohc {
    /// The firmware is busy.
    pub const BB: u32 = 1 << 4;
    /// The system owns the adapter.
    pub const OOS: u32 = 1 << 1;
    /// The firmware owns the adapter.
    pub const BOS: u32 = 1;
}

/// Bits of PxIS (3.3.5).
pub mod cause {
    pub const HBFS: u32 = 1 << 29;
    pub const HBDS: u32 = 1 << 28;
    pub const IFS: u32 = 1 << 27;
    pub const OFS: u32 = 1 << 24;
    pub const PRCS: u32 = 1 << 22;
    pub const PCS: u32 = 1 << 6;
}

/// Bits of PxCMD (3.3.7).
pub mod cmd {
    /// The state that the link is to go to.
    pub const ICC: u32 = 0xf << 28;
    /// The link may go to Slumber, and may go to sleep by itself.
    pub const ASP: u32 = 1 << 27;
    pub const ALPE: u32 = 1 << 26;
    /// The adapter can tell whether the disk's power is on, and switch it.
    pub const CPD: u32 = 1 << 20;
    /// The command list runs.
    pub const CR: u32 = 1 << 15;
    /// FISes are being received.
    pub const FR: u32 = 1 << 14;
    pub const FRE: u32 = 1 << 4;
    /// Power on.
    pub const POD: u32 = 1 << 2;
    /// Spin up.
    pub const SUD: u32 = 1 << 1;
    pub const ST: u32 = 1;
}

/// Bits of PxTFD (3.3.8): the status is that of the disk's last FIS.
pub mod task_file {
    pub const ERROR: u32 = 0xff00;
    pub const BSY: u32 = 0x80;
    pub const DRDY: u32 = 0x40;
    pub const DF: u32 = 0x20;
    pub const DRQ: u32 = 0x08;
    pub const ERR: u32 = 0x01;
    /// What a reset leaves (3.3.8).
    pub const AFTER_RESET: u32 = 0x7f;
}

/// DET of PxSSTS (3.3.10) and of PxSCTL (3.3.11).
pub mod detection {
    pub const MASK: u32 = 0xf;
    /// PxSSTS: a disk and its link are there.
    pub const LINK: u32 = 3;
    /// PxSCTL: COMRESET is being sent.
    pub const COMRESET: u32 = 1;
}

/// PxSCTL.IPM: the link goes to neither Partial nor Slumber (3.3.11).
pub const NO_SLEEP: u32 = 3 << 8;

/// Bits of PxSERR (3.3.12).
pub mod sata_error {
    /// COMINIT was received.
    pub const X: u32 = 1 << 26;
    /// PhyRdy changed.
    pub const N: u32 = 1 << 16;
}

#[cfg(test)]
mod tests {
    use super::*;

    #[test]
    fn each_place_has_one_register() {
        for offset in (0..MOST_BYTES).step_by(4) {
            assert_eq!(Register::at(offset).offset(), offset);
        }
        assert_eq!(Register::at(0x1b8), Register::Port(1, PortRegister::Ci));
    }
}
