//! What is done with an adapter before the server has it, and after a reset: docs/PORTING.md, P-8 to P-10, P-20 and
//! P-22. Sections are of AHCI 1.3.1.
use crate::adapter::{Adapter, Port};
use crate::bus::Bus;
use crate::registers::{bohc, cap, cmd, ghc, PortRegister, Register, BOH, NO_SLEEP};
use std::time::Duration;

/// How long a port may take to stop (10.1.2), and the adapter to be reset (10.4.3).
const STOPS_WITHIN: Duration = Duration::from_millis(500);
const RESET_WITHIN: Duration = Duration::from_secs(1);
/// How long the firmware has to say that it is busy, and how long it may be then (10.6.3).
const FIRMWARE_ANSWERS: Duration = Duration::from_millis(25);
const FIRMWARE_WITHIN: Duration = Duration::from_secs(2);
/// How often AE is written.
const TRIES: u32 = 5;

impl<B: Bus> Adapter<B> {
    /// Takes the adapter from whoever had it, and makes it idle (`IsIdle` of the definitions).
    pub fn hand_over(&mut self) -> Result<(), String> {
        if self.bus.read(Register::Cap) == !0 {
            return Err("the registers read as ones: the function is asleep or gone".into());
        }
        self.take_from_firmware();
        self.enable_ahci()?;
        self.keep_capabilities()?;
        self.stop_ports();
        self.reset()?;
        self.make_ready()?;
        self.is_idle()
    }

    /// P-8: the firmware gives the adapter up, where there is a hand-off (3.1.10, 3.1.11, 10.6.3).
    pub(crate) fn take_from_firmware(&mut self) {
        if self.bus.read(Register::Cap2) & BOH == 0 {
            return;
        }
        let control = self.bus.read(Register::Bohc);
        self.bus.write(Register::Bohc, control | bohc::OOS);
        self.bus.sleep(FIRMWARE_ANSWERS);
        let is_busy = self.bus.read(Register::Bohc) & bohc::BB != 0;
        let most = if is_busy { FIRMWARE_WITHIN } else { Duration::ZERO };
        if !self.clears(Register::Bohc, bohc::BOS, most) {
            eprintln!("host: the firmware doesn't give the adapter up (BOHC.BOS)");
        }
    }

    /// P-9: AE is written until it reads one; some adapters want it several times (3.1.2).
    pub(crate) fn enable_ahci(&mut self) -> Result<(), String> {
        for _try in 0..TRIES {
            let control = self.bus.read(Register::Ghc);
            if control & ghc::AE != 0 {
                return Ok(());
            }
            self.bus.write(Register::Ghc, control | ghc::AE);
            if self.bus.read(Register::Ghc) & ghc::AE != 0 {
                return Ok(());
            }
            self.bus.sleep(Duration::from_millis(10));
        }
        Err("GHC.AE stays zero".into())
    }

    /// P-10: CAP and PI as the firmware left them, since a reset may lose them (3.1.1, 3.1.4).
    pub(crate) fn keep_capabilities(&mut self) -> Result<(), String> {
        self.cap = self.bus.read(Register::Cap);
        self.pi = self.bus.read(Register::Pi);
        if self.pi == 0 {
            return Err(
                "PI is zero: VFIO's reset lost what the firmware wrote (modprobe vfio-pci disable_idle_d3=1)".into()
            );
        }
        Ok(())
    }

    /// P-8: each port is stopped before the reset: ST, and then, once CR is zero, FRE (3.3.7, 10.1.2).
    pub(crate) fn stop_ports(&mut self) {
        for port in self.numbers() {
            let register = Register::Port(port, PortRegister::Cmd);
            let stops = [(cmd::ST, cmd::CR), (cmd::FRE, cmd::FR)].into_iter().all(|(switch, runs)| {
                let command = self.bus.read(register);
                self.bus.write(register, command & !switch);
                self.clears(register, runs, STOPS_WITHIN)
            });
            if !stops {
                eprintln!("host: port {port} doesn't stop; the reset has to do it");
            }
        }
    }

    /// P-8: the adapter is reset, which ends within a second (10.4.3).
    pub(crate) fn reset(&mut self) -> Result<(), String> {
        self.bus.write(Register::Ghc, ghc::AE | ghc::HR);
        if self.clears(Register::Ghc, ghc::HR, RESET_WITHIN) {
            Ok(())
        } else {
            Err("the adapter doesn't end its reset".into())
        }
    }

    /// What a reset takes away and the server doesn't set.
    pub(crate) fn make_ready(&mut self) -> Result<(), String> {
        self.enable_ahci()?;
        self.restore_capabilities();
        for port in self.numbers() {
            self.ports[port] = Port::default();
            self.spin_up(port);
            self.keep_awake(port);
            self.mask_interrupts(port);
        }
        Ok(())
    }

    /// P-10: CAP and PI are written again where the reset lost them; where that doesn't take, they are shown so all the
    /// same (3.1.1, 3.1.4).
    pub(crate) fn restore_capabilities(&mut self) {
        for (register, kept) in [(Register::Cap, self.cap), (Register::Pi, self.pi)] {
            if self.bus.read(register) != kept {
                self.bus.write(register, kept);
            }
        }
    }

    /// P-22: the disk's power is on, where the port can switch it, and it spins up (3.3.7).
    pub(crate) fn spin_up(&mut self, port: usize) {
        let register = Register::Port(port, PortRegister::Cmd);
        let command = self.bus.read(register);
        let power = if command & cmd::CPD != 0 { cmd::POD } else { 0 };
        self.bus.write(register, command | cmd::SUD | power);
    }

    /// P-20: the link doesn't go to sleep: IPM of PxSCTL is 3, and ALPE, ASP and ICC of PxCMD are zero (3.3.7, 3.3.11).
    pub(crate) fn keep_awake(&mut self, port: usize) {
        let register = Register::Port(port, PortRegister::Cmd);
        let command = self.bus.read(register);
        self.bus.write(register, command & !(cmd::ICC | cmd::ASP | cmd::ALPE));
        self.bus.write(Register::Port(port, PortRegister::Sctl), NO_SLEEP);
    }

    /// P-8: no port keeps its interrupt line up (3.3.6).
    pub(crate) fn mask_interrupts(&mut self, port: usize) {
        self.bus.write(Register::Port(port, PortRegister::Ie), 0);
    }

    /// P-8: ST, FRE, CR and FR of each port are zero, and so are PxCI and PxSACT (`IsIdle`; 3.1.11, 10.1.2).
    pub(crate) fn is_idle(&mut self) -> Result<(), String> {
        for port in self.numbers() {
            let command = self.bus.read(Register::Port(port, PortRegister::Cmd));
            let issued = self.bus.read(Register::Port(port, PortRegister::Ci));
            let active = self.bus.read(Register::Port(port, PortRegister::Sact));
            if command & (cmd::ST | cmd::FRE | cmd::CR | cmd::FR) != 0 || issued | active != 0 {
                return Err(format!(
                    "port {port} isn't idle: PxCMD {command:08x}h, PxCI {issued:x}h, PxSACT {active:x}h"
                ));
            }
        }
        Ok(())
    }

    /// Ends all that the adapter does, as it is given back (10.4.3).
    pub fn quiet(&mut self) {
        if let Err(why) = self.reset() {
            eprintln!("host: {why}, at the end");
        }
    }

    /// Tells the registers.
    pub fn tell(&mut self, when: &str) {
        let own = Register::NAMED.map(|(register, _)| format!("{register:?} {:08x}", self.bus.read(register)));
        eprintln!("host: {when}: {}", own.join(" "));
        for port in self.numbers() {
            let own = PortRegister::NAMED
                .map(|(register, _)| format!("{register:?} {:x}", self.bus.read(Register::Port(port, register))));
            eprintln!("host: {when}: port {port}: {}", own.join(" "));
        }
    }

    /// What of the adapter the configuration has to say.
    pub fn tell_configuration(&self) {
        let slots = (self.cap & cap::NCS) / (cap::NCS & cap::NCS.wrapping_neg()) + 1;
        eprintln!("host: the configuration has slots = {slots}, and ncq = {} at most", self.cap & cap::SNCQ != 0);
    }
}
