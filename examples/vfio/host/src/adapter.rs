//! An AHCI adapter as the server's definitions have it: what docs/PORTING.md asks of an adapter beside its four calls.
//! Each duty is a function with its number there and the section of AHCI 1.3.1.
use crate::bus::Bus;
use crate::differences::{failed_status, fatal_causes, AsTold, Otherwise, Tally};
use crate::registers::{cause, cmd, detection, ghc, sata_error, task_file};
use crate::registers::{PortRegister, Register, MOST_PORTS, NO_SLEEP};
use std::time::Duration;

/// How long a link has to be still before it is shown.
const STILL: Duration = Duration::from_millis(100);
/// How long COMRESET is sent; the standard asks for a millisecond at least.
const COMRESET: Duration = Duration::from_millis(2);
/// How long FR and CR may take to follow FRE and ST up.
const STARTS_WITHIN: Duration = Duration::from_millis(100);
const OCCUPIED: u32 = task_file::BSY | task_file::DRQ;

/// Ports 0 to 3, which the definitions have.
const MODEL_PORTS: u32 = 0xf;

/// CR and FR, where ST and FRE are set in PxCMD.
fn runs_with(command: u32) -> u32 {
    let list = if command & cmd::ST != 0 { cmd::CR } else { 0 };
    let receive = if command & cmd::FRE != 0 { cmd::FR } else { 0 };
    list | receive
}

/// Whether PI names this port (3.1.4), and its registers are among so many bytes.
fn is_port(pi: u32, length: usize, port: usize) -> bool {
    pi >> port & 1 == 1 && Register::Port(port + 1, PortRegister::Clb).offset() <= length
}

/// What is known of a port's link.
#[derive(Clone, Copy, Debug, Default, PartialEq, Eq)]
enum Link {
    /// It is down, or the disk's first FIS hasn't come.
    #[default]
    Down,
    /// The first FIS has come, and nothing has moved since then.
    Stills(Duration),
    Up,
}

/// What the host knows of a port.
#[derive(Clone, Copy, Debug, Default)]
pub struct Port {
    link: Link,
    /// Bits of PxSERR that were cleared in hardware and are shown until the server writes them.
    hidden: u32,
    /// When COMRESET began.
    comreset: Option<Duration>,
    /// Slots of PxCI and PxSACT that the server set and was shown as set since.
    issued: u32,
    active: u32,
    /// Slots that are shown as set in PxCI, since what became of them mustn't be taken for done.
    kept: u32,
    /// IFS is shown, for a device fault.
    faulted: bool,
    /// PxCMD, PxCLB and PxFB as they were written, where the port isn't there.
    command: u32,
    list: u32,
    received: u32,
}

/// The last two readings, and how many in a row showed nothing that these hadn't.
#[derive(Default)]
struct Readings {
    last: [Option<(Register, u32)>; 2],
    same: u32,
}

impl Readings {
    /// Notes a reading. The server waits where the same is read again; `follow` looks at two registers by turns.
    fn note(&mut self, register: Register, value: u32) {
        let reading = Some((register, value));
        self.same = if self.last.contains(&reading) { self.same + 1 } else { 0 };
        self.last = [reading, self.last[0]];
    }

    fn is_alone(&self) -> bool {
        self.last[0] == self.last[1]
    }
}

/// The adapter as it is shown to the server.
pub struct Adapter<B> {
    pub(crate) bus: B,
    pub(crate) cap: u32,
    pub(crate) pi: u32,
    pub(crate) ports: [Port; MOST_PORTS],
    /// The port that is shown as port 0, whose number it changes with.
    first: usize,
    /// The server has asked for a reset that hasn't been seen to end.
    resetting: bool,
    /// It was found that the adapter isn't there any more.
    gone: bool,
    readings: Readings,
    as_told: Vec<AsTold>,
    pub tally: Tally,
    pub naps: u64,
    pub napped: Duration,
}

impl<B: Bus> Adapter<B> {
    /// The adapter behind these registers, whose port `first` is shown as port 0.
    pub fn new(bus: B, first: usize, as_told: Vec<AsTold>) -> Adapter<B> {
        Adapter {
            bus,
            cap: 0,
            pi: 0,
            ports: [Port::default(); MOST_PORTS],
            first,
            resetting: false,
            gone: false,
            readings: Readings::default(),
            as_told,
            tally: Tally::default(),
            naps: 0,
            napped: Duration::ZERO,
        }
    }

    /// The ports that are there (3.1.4).
    pub(crate) fn numbers(&self) -> impl Iterator<Item = usize> {
        let (pi, length) = (self.pi, self.bus.length());
        (0..MOST_PORTS).filter(move |port| is_port(pi, length, *port))
    }

    /// Waits until these bits are clear, and says whether they are.
    pub(crate) fn clears(&mut self, register: Register, bits: u32, most: Duration) -> bool {
        let begun = self.bus.now();
        while self.bus.read(register) & bits != 0 {
            if self.bus.now() - begun > most {
                return false;
            }
            self.bus.sleep(Duration::from_micros(100));
        }
        true
    }

    fn nap(&mut self, time: Duration) {
        self.naps += 1;
        self.napped += time;
        self.bus.sleep(time);
    }

    /// How many bytes of registers there are.
    pub fn length(&self) -> usize {
        self.bus.length()
    }

    /// P-11: the number of a port of the server's, or the server's number of one (3.1.4).
    fn renumbered(&self, register: Register) -> Register {
        match register {
            Register::Port(0, of_port) => Register::Port(self.first, of_port),
            Register::Port(port, of_port) if port == self.first => Register::Port(0, of_port),
            other => other,
        }
    }

    /// P-11: bits of ports, with the two numbers exchanged.
    fn renumbered_bits(&self, bits: u32) -> u32 {
        let differ = (bits ^ bits >> self.first) & 1;
        bits ^ (differ | differ << self.first)
    }

    fn has_port(&self, port: usize) -> bool {
        is_port(self.pi, self.bus.length(), port)
    }

    /// What the server reads.
    pub fn read(&mut self, register: Register) -> u32 {
        let register = self.renumbered(register);
        let shown = self.shown(register);
        self.readings.note(register, shown);
        match self.patience(register, shown) {
            Some(time) => {
                self.nap(time);
                let shown = self.shown(register);
                self.readings.last[0] = Some((register, shown));
                shown
            }
            None => shown,
        }
    }

    /// P-12, waits as readings: how long a reading takes that shows what is waited on to change, so that 64 in a row
    /// are enough (10.1.2, 10.4.3; others by what disks take). The first in a row doesn't wait.
    fn patience(&mut self, register: Register, shown: u32) -> Option<Duration> {
        let alone = self.readings.is_alone();
        if self.readings.same == 0 {
            return None;
        }
        let microseconds = match register {
            Register::Ghc if alone && shown & ghc::HR != 0 => 16_000,
            Register::Port(_, PortRegister::Cmd) if alone && shown & (cmd::CR | cmd::FR) != 0 => 8_000,
            Register::Port(port, PortRegister::Ssts) if alone && shown & detection::MASK != detection::LINK => {
                self.link_patience(port)
            }
            Register::Port(_, PortRegister::Tfd) if alone && shown & OCCUPIED != 0 => 150_000,
            Register::Port(port, PortRegister::Ci) if shown != 0 && !self.has_failed(port) => {
                // A command may be quick, or have its disk spin up. `follow` looks at PxCI and PxSACT by turns, and
                // more often.
                (10 << self.readings.same.min(14)).min(if alone { 160_000 } else { 1_000 })
            }
            _ => return None,
        };
        Some(Duration::from_micros(microseconds))
    }

    /// A disk that is there may have to spin up before its first FIS, and one that isn't won't come.
    fn link_patience(&mut self, port: usize) -> u64 {
        let there = self.bus.read(Register::Port(port, PortRegister::Ssts)) & detection::MASK != 0;
        if there && self.ports[port].link == Link::Down {
            200_000
        } else {
            20_000
        }
    }

    /// Whether a command of the port has failed: no bit of PxCI falls then.
    fn has_failed(&mut self, port: usize) -> bool {
        let status = self.bus.read(Register::Port(port, PortRegister::Tfd));
        status & (OCCUPIED | task_file::ERR) == task_file::ERR
    }

    /// A register as the definitions have it.
    fn shown(&mut self, register: Register) -> u32 {
        if self.gone {
            return !0;
        }
        match register {
            Register::Port(port, of_port) if port < MOST_PORTS && !self.has_port(port) => {
                return self.absent_port(port, of_port);
            }
            _ => {}
        }
        let value = self.bus.read(register);
        if value == !0 && self.has_gone(register, value) {
            return !0;
        }
        if self.reset_is_over(register, value) && self.after_reset().is_err() {
            // A reset that doesn't end.
            return value | ghc::HR;
        }
        let shown = match register {
            Register::Cap => self.as_kept(register, value, self.cap),
            Register::Pi => self.ports_shown(value),
            Register::Is => self.renumbered_bits(value),
            Register::Port(port, of_port) if port < MOST_PORTS => self.shown_of_port(port, of_port, value),
            _ => value,
        };
        let told = self.as_told.iter().fold(shown, |shown, told| told.shown(register, shown));
        self.note_if(told != shown, Otherwise::AsTold, register, shown, told)
    }

    fn shown_of_port(&mut self, port: usize, of_port: PortRegister, value: u32) -> u32 {
        let register = Register::Port(port, of_port);
        match of_port {
            PortRegister::Ssts => self.settled_link(port, value),
            PortRegister::Serr => {
                let shown = value | self.ports[port].hidden;
                self.note_if(shown != value, Otherwise::HiddenExchange, register, value, shown)
            }
            PortRegister::Is => self.causes(port, value),
            PortRegister::Tfd => {
                let shown = failed_status(value);
                self.note_if(shown != value, Otherwise::FailedStatus, register, value, shown)
            }
            PortRegister::Ci => self.slots_issued(port, value),
            PortRegister::Sact => self.slots_active(port, value),
            _ => value,
        }
    }

    fn note_if(&mut self, is_otherwise: bool, which: Otherwise, register: Register, value: u32, shown: u32) -> u32 {
        if is_otherwise {
            self.tally.shows(which, register, value, shown);
        }
        shown
    }

    /// P-10: CAP and PI are constant, also where a reset lost what the firmware wrote (3.1.1, 3.1.4).
    fn as_kept(&mut self, register: Register, value: u32, kept: u32) -> u32 {
        self.note_if(kept != value, Otherwise::KeptCapabilities, register, value, kept)
    }

    /// P-11: the definitions have ports 0 to 3; one that isn't there is shown as one without a disk (3.1.4).
    fn ports_shown(&mut self, value: u32) -> u32 {
        let kept = self.as_kept(Register::Pi, value, self.pi);
        let own = self.renumbered_bits(kept);
        let shown = own | MODEL_PORTS;
        self.note_if(shown != own, Otherwise::AbsentPort, Register::Pi, own, shown)
    }

    /// P-11: a port that isn't there, as one without a disk: FR and CR follow FRE and ST, and there is no link.
    fn absent_port(&self, port: usize, of_port: PortRegister) -> u32 {
        let absent = &self.ports[port];
        let command = absent.command & (cmd::ST | cmd::FRE);
        match of_port {
            PortRegister::Clb => absent.list,
            PortRegister::Fb => absent.received,
            PortRegister::Cmd => command | runs_with(command),
            PortRegister::Tfd => task_file::AFTER_RESET,
            _ => 0,
        }
    }

    /// P-14 and P-21: no link is shown before the disk's first FIS has come and the link has been still. That FIS waits
    /// until X of PxSERR is clear, so that it is cleared here, and shown until the server clears it (3.3.8, 3.3.10,
    /// 3.3.12).
    fn settled_link(&mut self, port: usize, value: u32) -> u32 {
        let now = self.bus.now();
        if value & detection::MASK != detection::LINK {
            self.ports[port].link = Link::Down;
        } else if self.ports[port].link != Link::Up {
            let changed = self.clear_exchange(port);
            let has_come = self.bus.read(Register::Port(port, PortRegister::Tfd)) & OCCUPIED == 0;
            self.ports[port].link = match self.ports[port].link {
                _ if !has_come => Link::Down,
                Link::Stills(since) if !changed && now - since >= STILL => Link::Up,
                Link::Stills(since) if !changed => Link::Stills(since),
                _ => Link::Stills(now),
            };
        }
        if self.ports[port].link == Link::Up {
            return value;
        }
        let shown = value & !detection::MASK;
        let register = Register::Port(port, PortRegister::Ssts);
        self.note_if(shown != value, Otherwise::LinkNotReady, register, value, shown)
    }

    /// Clears X and N of PxSERR, and says whether one was set.
    fn clear_exchange(&mut self, port: usize) -> bool {
        let register = Register::Port(port, PortRegister::Serr);
        let changed = self.bus.read(register) & (sata_error::X | sata_error::N);
        if changed != 0 {
            self.bus.write(register, changed);
            self.ports[port].hidden |= changed;
        }
        changed != 0
    }

    /// P-17, P-19 and P-14: fatal causes under the names that the definitions have, and the causes of what is hidden
    /// (3.3.5).
    fn causes(&mut self, port: usize, value: u32) -> u32 {
        let register = Register::Port(port, PortRegister::Is);
        let fatal = fatal_causes(value);
        self.note_if(fatal != value, Otherwise::FatalCause, register, value, fatal);
        let Port { hidden, faulted, .. } = self.ports[port];
        let mut shown = fatal;
        if hidden & sata_error::X != 0 {
            shown |= cause::PCS;
        }
        if hidden & sata_error::N != 0 {
            shown |= cause::PRCS;
        }
        if faulted {
            shown |= cause::IFS;
        }
        shown
    }

    /// P-15, P-17 and P-23: a slot whose bit fell is done only where the adapter is still there and the disk tells no
    /// device fault, and where the command went to the disk at all (3.3.14).
    fn slots_issued(&mut self, port: usize, value: u32) -> u32 {
        let register = Register::Port(port, PortRegister::Ci);
        let fell = self.ports[port].issued & !self.ports[port].kept & !value;
        if fell != 0 {
            if self.has_gone(register, value) {
                return !0;
            }
            if self.has_device_fault(port) {
                self.ports[port].kept |= fell;
                self.ports[port].faulted = true;
                self.tally.shows(Otherwise::DeviceFault, register, value, value | fell);
            }
        }
        let shown = value | self.ports[port].kept;
        self.ports[port].issued = shown;
        shown
    }

    fn slots_active(&mut self, port: usize, value: u32) -> u32 {
        let fell = self.ports[port].active & !value;
        if fell != 0 && self.has_gone(Register::Port(port, PortRegister::Sact), value) {
            return !0;
        }
        self.ports[port].active = value;
        value
    }

    /// P-15: an adapter that has gone, or was reset by others, mustn't read as zeros, which are done. GHC.AE is one as
    /// long as it is there and nobody reset it (3.1.2). From then on all is ones.
    fn has_gone(&mut self, register: Register, value: u32) -> bool {
        let control = self.bus.read(Register::Ghc);
        self.gone = control == !0 || control & ghc::AE == 0 && !self.resetting;
        if self.gone {
            self.tally.shows(Otherwise::Gone, register, value, !0);
        }
        self.gone
    }

    /// P-17: a disk that reports a device fault without ERR raises no TFES (ACS-3, remembered; 3.3.8).
    fn has_device_fault(&mut self, port: usize) -> bool {
        let status = self.bus.read(Register::Port(port, PortRegister::Tfd));
        status != !0 && status & (task_file::DF | task_file::ERR) == task_file::DF && status & OCCUPIED == 0
    }

    /// What the server writes.
    pub fn write(&mut self, register: Register, value: u32) {
        self.readings = Readings::default();
        match self.renumbered(register) {
            Register::Port(port, of_port) if port < MOST_PORTS && !self.has_port(port) => {
                let absent = &mut self.ports[port];
                match of_port {
                    PortRegister::Cmd => absent.command = value,
                    PortRegister::Clb => absent.list = value,
                    PortRegister::Fb => absent.received = value,
                    _ => {}
                }
            }
            Register::Is => self.bus.write(register, self.renumbered_bits(value)),
            Register::Ghc if value & ghc::HR != 0 => {
                self.resetting = true;
                self.bus.write(register, value);
            }
            Register::Port(port, of_port) if port < MOST_PORTS => self.write_to_port(port, of_port, value),
            other => self.bus.write(other, value),
        }
    }

    fn write_to_port(&mut self, port: usize, of_port: PortRegister, value: u32) {
        let register = Register::Port(port, of_port);
        match of_port {
            PortRegister::Cmd => self.start_or_stop(port, value),
            PortRegister::Sctl => self.control_link(port, value),
            PortRegister::Serr => {
                self.ports[port].hidden &= !value;
                self.bus.write(register, value);
            }
            PortRegister::Is => self.clear_causes(port, value),
            PortRegister::Sact => {
                self.ports[port].active |= value;
                self.bus.write(register, value);
            }
            PortRegister::Ci => self.issue(port, value),
            _ => self.bus.write(register, value),
        }
    }

    /// P-20, and the definitions' rise of FR and CR with FRE and ST: the link's power management stays off, and the
    /// write ends when they have risen (3.3.7).
    fn start_or_stop(&mut self, port: usize, value: u32) {
        let register = Register::Port(port, PortRegister::Cmd);
        self.bus.write(register, value & !(cmd::ICC | cmd::ASP | cmd::ALPE));
        if value & cmd::ST == 0 {
            let Port { issued, active, kept, .. } = &mut self.ports[port];
            (*issued, *active, *kept) = (0, 0, 0);
        }
        let rises = runs_with(value);
        let begun = self.bus.now();
        while self.bus.read(register) & rises != rises && self.bus.now() - begun < STARTS_WITHIN {
            self.bus.sleep(Duration::from_micros(10));
        }
    }

    /// P-13 and P-20: COMRESET lasts two milliseconds, where the standard asks for one (10.4.2), and no link goes to
    /// sleep (3.3.11).
    fn control_link(&mut self, port: usize, value: u32) {
        if let Some(begun) = self.ports[port].comreset {
            let left = COMRESET.saturating_sub(self.bus.now() - begun);
            if !left.is_zero() {
                self.nap(left);
            }
        }
        self.bus.write(Register::Port(port, PortRegister::Sctl), value | NO_SLEEP);
        let begins = value & detection::MASK == detection::COMRESET;
        self.ports[port].comreset = begins.then(|| self.bus.now());
        self.ports[port].link = Link::Down;
        self.ports[port].hidden = 0;
    }

    /// P-19: where the server clears IFS or HBFS, what was shown so is cleared, too (3.3.5).
    fn clear_causes(&mut self, port: usize, value: u32) {
        let mut cleared = value;
        if value & cause::IFS != 0 {
            cleared |= cause::OFS;
            self.ports[port].faulted = false;
        }
        if value & cause::HBFS != 0 {
            cleared |= cause::HBDS;
        }
        self.bus.write(Register::Port(port, PortRegister::Is), cleared);
    }

    /// P-23: a disk that was exchanged does nothing before COMRESET. Once X has risen after the link came up, no
    /// command is passed on, and its slot stays set (3.3.12, 3.3.14).
    fn issue(&mut self, port: usize, value: u32) {
        let register = Register::Port(port, PortRegister::Ci);
        let exchanged = self.ports[port].link == Link::Up
            && self.bus.read(Register::Port(port, PortRegister::Serr)) & sata_error::X != 0;
        self.ports[port].issued |= value;
        if exchanged {
            self.ports[port].kept |= value;
            self.tally.shows(Otherwise::KeptBack, register, 0, value);
        } else {
            self.bus.write(register, value);
        }
    }

    /// Whether a reset that the server asked for is seen to be over.
    fn reset_is_over(&self, register: Register, value: u32) -> bool {
        self.resetting && register == Register::Ghc && value & ghc::HR == 0
    }

    /// What the server's own reset took away, and it doesn't set.
    fn after_reset(&mut self) -> Result<(), String> {
        self.make_ready()?;
        self.resetting = false;
        Ok(())
    }
}
