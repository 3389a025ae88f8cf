//! An adapter in software, with a clock of its own, that asks for each duty of the host: firmware has it and left it
//! running, AE takes several writes, a reset loses CAP and PI, engines are slow, the disk wants a long COMRESET, waits
//! for PxSERR.X, and its link is not still at first. What the standard forbids is noted.
use crate::bus::Bus;
use crate::registers::{bohc, cmd, detection, ghc, sata_error, task_file};
use crate::registers::{PortRegister, Register, BOH, MOST_BYTES, NO_SLEEP};
use std::time::Duration;

pub const CAPABILITIES: u32 = 0x4000_1f03;
pub const PORTS: u32 = 0x31;
/// The port that has the disk which the tests boot, and one that has none.
pub const DISK: usize = 0;
pub const OTHER_DISK: usize = 5;

const GIVES_UP: Duration = Duration::from_millis(200);
const RESETS: Duration = Duration::from_millis(900);
const STOPS: Duration = Duration::from_millis(400);
const STARTS: Duration = Duration::from_millis(3);
const LINK_UP: Duration = Duration::from_millis(50);
const SPINS_UP: Duration = Duration::from_secs(7);
const LATE: Duration = Duration::from_millis(60);
const SLEEPS: Duration = Duration::from_millis(50);
const COMRESET: Duration = Duration::from_millis(1);
/// As often AE has to be written.
const AE_WRITES: u32 = 3;

/// What happens to a port at some time.
#[derive(Clone, Copy, Debug, PartialEq, Eq)]
enum Event {
    ListRuns(bool),
    ReceiveRuns(bool),
    LinkUp,
    /// The disk has spun up, and sends its first FIS once X is clear.
    FirstFis,
    /// PhyRdy changes once more.
    LateChange,
    /// The link goes to sleep, and wakes.
    Sleeps,
}

#[derive(Clone, Default)]
pub struct SoftwarePort {
    /// Registers that do nothing by themselves.
    kept: [u32; 0x80 / 4],
    pub command: u32,
    pub control: u32,
    pub status: u32,
    pub error: u32,
    pub task_file: u32,
    pub causes: u32,
    pub enabled: u32,
    pub issued: u32,
    pub active: u32,
    has_disk: bool,
    /// The first FIS is ready to be sent.
    has_spun_up: bool,
    comreset: Option<Duration>,
    events: Vec<(Duration, Event)>,
}

pub struct SoftwareAdapter {
    pub clock: Duration,
    pub cap: u32,
    pub pi: u32,
    control: u32,
    hand_off: u32,
    firmware_until: Option<Duration>,
    enabling: u32,
    /// How often AE has to be written.
    pub enables_after: u32,
    resets_until: Option<Duration>,
    /// Whether CAP and PI can be written, which a reset loses.
    pub is_writable: bool,
    /// Whether a reset leaves a slot set.
    pub stays_active: bool,
    /// No longer there: all registers read so.
    pub gone: Option<u32>,
    /// Never ends a reset.
    pub is_stuck: bool,
    pub ports: [SoftwarePort; 32],
    /// What was done that the standard forbids.
    pub faults: Vec<&'static str>,
}

impl SoftwareAdapter {
    /// As firmware leaves it.
    pub fn new() -> SoftwareAdapter {
        let mut ports: [SoftwarePort; 32] = Default::default();
        for port in [DISK, OTHER_DISK] {
            ports[port].has_disk = true;
        }
        let running = cmd::ST | cmd::FRE | cmd::CR | cmd::FR | cmd::SUD | cmd::POD | cmd::ALPE | cmd::ASP;
        ports[DISK].command = running | cmd::CPD;
        ports[DISK].status = 0x133;
        ports[DISK].task_file = 0x50;
        ports[DISK].enabled = 1;
        SoftwareAdapter {
            clock: Duration::ZERO,
            cap: CAPABILITIES,
            pi: PORTS,
            control: 0,
            hand_off: bohc::BOS | bohc::BB,
            firmware_until: None,
            enabling: 0,
            enables_after: AE_WRITES,
            resets_until: None,
            is_writable: false,
            stays_active: false,
            gone: None,
            is_stuck: false,
            ports,
            faults: Vec::new(),
        }
    }

    fn fault(&mut self, is_one: bool, what: &'static str) {
        if is_one && !self.faults.contains(&what) {
            self.faults.push(what);
        }
    }

    /// Does what has come due.
    fn advance(&mut self) {
        let now = self.clock;
        if self.firmware_until.is_some_and(|until| now >= until) {
            self.firmware_until = None;
            self.hand_off &= !(bohc::BOS | bohc::BB);
        }
        if self.resets_until.is_some_and(|until| now >= until && !self.is_stuck) {
            self.end_reset();
        }
        for port in &mut self.ports {
            port.advance(now);
        }
    }

    fn end_reset(&mut self) {
        self.resets_until = None;
        (self.control, self.enabling) = (0, 0);
        (self.cap, self.pi) = (0x0000_0003, 0);
        for port in &mut self.ports {
            let cpd = port.command & cmd::CPD;
            *port = SoftwarePort { has_disk: port.has_disk, command: cpd, task_file: 0x7f, ..SoftwarePort::default() };
            // The firmware's own ways stay in these.
            port.command |= cmd::ALPE | cmd::ASP;
            port.enabled = 1;
        }
        self.ports[OTHER_DISK].active = self.stays_active.into();
    }

    fn write_control(&mut self, value: u32) {
        if value & ghc::HR != 0 && self.resets_until.is_none() {
            let runs = self.ports.iter().any(|port| port.command & (cmd::CR | cmd::FR) != 0);
            self.fault(runs, "a reset while a port runs");
            self.resets_until = Some(self.clock + RESETS);
            self.control |= ghc::HR;
        }
        if value & ghc::AE != 0 && self.resets_until.is_none() {
            self.enabling += 1;
            if self.enabling >= self.enables_after {
                self.control |= ghc::AE;
            }
        }
    }
}

impl SoftwarePort {
    fn at(&mut self, when: Duration, event: Event) {
        self.events.push((when, event));
    }

    fn advance(&mut self, now: Duration) {
        let due = |it: &(Duration, Event)| it.0 <= now;
        while let Some(place) = self.events.iter().position(due) {
            let (when, event) = self.events.remove(place);
            self.happens(when, event);
        }
        if self.has_spun_up && self.error & sata_error::X == 0 && self.task_file & task_file::BSY != 0 {
            (self.task_file, self.has_spun_up) = (0x50, false);
            self.at(now + LATE, Event::LateChange);
        }
    }

    fn happens(&mut self, when: Duration, event: Event) {
        match event {
            Event::ListRuns(runs) => self.command = self.command & !cmd::CR | if runs { cmd::CR } else { 0 },
            Event::ReceiveRuns(runs) => self.command = self.command & !cmd::FR | if runs { cmd::FR } else { 0 },
            Event::LinkUp => {
                self.status = 0x133;
                self.task_file = task_file::BSY;
                self.error |= sata_error::X | sata_error::N;
                self.at(when + SPINS_UP, Event::FirstFis);
                if self.control & NO_SLEEP != NO_SLEEP || self.command & (cmd::ALPE | cmd::ASP) != 0 {
                    self.at(when + SPINS_UP + LATE + LATE + SLEEPS, Event::Sleeps);
                }
            }
            Event::FirstFis => self.has_spun_up = true,
            Event::LateChange | Event::Sleeps => self.error |= sata_error::N,
        }
    }

    fn has_power(&self) -> bool {
        self.command & cmd::SUD != 0 && (self.command & cmd::CPD == 0 || self.command & cmd::POD != 0)
    }

    fn write_link_control(&mut self, now: Duration, value: u32) {
        if value & detection::MASK == detection::COMRESET {
            self.comreset = Some(now);
            (self.status, self.task_file, self.has_spun_up) = (0, 0x7f, false);
            self.events.retain(|(_, event)| matches!(event, Event::ListRuns(_) | Event::ReceiveRuns(_)));
        } else if let Some(begun) = self.comreset.take() {
            if now - begun >= COMRESET && self.has_disk && self.has_power() {
                self.status = 1;
                self.at(now + LINK_UP, Event::LinkUp);
            }
        }
        self.control = value;
    }

    fn write_command(&mut self, now: Duration, value: u32) {
        let held = cmd::CR | cmd::FR | cmd::CPD;
        let before = self.command;
        self.command = value & !held | before & held;
        if (before ^ value) & cmd::ST != 0 {
            let starts = value & cmd::ST != 0;
            self.at(now + if starts { STARTS } else { STOPS }, Event::ListRuns(starts));
            if !starts {
                (self.issued, self.active) = (0, 0);
            }
        }
        if (before ^ value) & cmd::FRE != 0 {
            let starts = value & cmd::FRE != 0;
            self.at(now + if starts { STARTS } else { STOPS }, Event::ReceiveRuns(starts));
        }
    }

    fn shown(&self, of_port: PortRegister) -> u32 {
        match of_port {
            PortRegister::Cmd => self.command,
            PortRegister::Sctl => self.control,
            PortRegister::Ssts => self.status,
            PortRegister::Serr => self.error,
            PortRegister::Tfd => self.task_file,
            PortRegister::Is => self.causes,
            PortRegister::Ie => self.enabled,
            PortRegister::Ci => self.issued,
            PortRegister::Sact => self.active,
            other => self.kept[Register::Port(0, other).offset() % 0x80 / 4],
        }
    }

    fn write(&mut self, now: Duration, of_port: PortRegister, value: u32) {
        match of_port {
            PortRegister::Cmd => self.write_command(now, value),
            PortRegister::Sctl => self.write_link_control(now, value),
            PortRegister::Serr => self.error &= !value,
            PortRegister::Is => self.causes &= !value,
            PortRegister::Ie => self.enabled = value,
            PortRegister::Ci => self.issued |= value,
            PortRegister::Sact => self.active |= value,
            PortRegister::Ssts | PortRegister::Tfd => {}
            other => self.kept[Register::Port(0, other).offset() % 0x80 / 4] = value,
        }
    }
}

impl Bus for SoftwareAdapter {
    fn read(&mut self, register: Register) -> u32 {
        self.clock += Duration::from_micros(1);
        self.advance();
        if let Some(value) = self.gone {
            return value;
        }
        match register {
            Register::Cap => self.cap,
            Register::Pi => self.pi,
            Register::Ghc => self.control,
            Register::Cap2 => BOH,
            Register::Bohc => self.hand_off,
            Register::Vs => 0x0001_0301,
            Register::Port(port, of_port) => self.ports[port].shown(of_port),
            Register::Is | Register::Other(_) => 0,
        }
    }

    fn write(&mut self, register: Register, value: u32) {
        self.clock += Duration::from_micros(1);
        self.advance();
        let (firmware, enabled) = (self.hand_off & bohc::BOS != 0, self.control & ghc::AE != 0);
        match register {
            Register::Bohc => {
                if value & bohc::OOS != 0 && firmware {
                    self.firmware_until = Some(self.clock + GIVES_UP);
                }
                self.hand_off |= value & bohc::OOS;
                return;
            }
            _ => self.fault(firmware, "a write while the firmware has the adapter"),
        }
        match register {
            Register::Ghc => self.write_control(value),
            Register::Cap if self.is_writable => self.cap = value,
            Register::Pi if self.is_writable => self.pi = value,
            Register::Port(port, of_port) => {
                self.fault(!enabled, "a write to a port without AE");
                let runs = self.ports[port].command & cmd::CR != 0;
                let stops = of_port == PortRegister::Cmd && value & cmd::FRE == 0;
                self.fault(stops && runs, "FRE cleared while CR is one");
                let now = self.clock;
                self.ports[port].write(now, of_port, value);
            }
            _ => {}
        }
    }

    fn length(&self) -> usize {
        MOST_BYTES
    }

    fn now(&self) -> Duration {
        self.clock
    }

    fn sleep(&mut self, time: Duration) {
        self.clock += time;
        self.advance();
    }
}
