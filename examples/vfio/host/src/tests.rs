//! Each duty, over an adapter in software that asks for it: `edits` beside this crate has what is left out of the host
//! to see each of these fail.
use crate::adapter::Adapter;
use crate::bus::Bus;
use crate::registers::{cause, cmd, detection, ghc, sata_error, task_file, PortRegister, Register, NO_SLEEP};
use crate::software_adapter::{SoftwareAdapter, CAPABILITIES, DISK, OTHER_DISK, PORTS};
use std::time::Duration;

/// How often the server reads what it waits on.
const READINGS: usize = 64;

const fn of(register: PortRegister) -> Register {
    Register::Port(0, register)
}

const CI: Register = of(PortRegister::Ci);
const SACT: Register = of(PortRegister::Sact);
const CMD: Register = of(PortRegister::Cmd);
const IS: Register = of(PortRegister::Is);
const SCTL: Register = of(PortRegister::Sctl);
const SERR: Register = of(PortRegister::Serr);
const SSTS: Register = of(PortRegister::Ssts);
const TFD: Register = of(PortRegister::Tfd);

type Tested = Adapter<SoftwareAdapter>;

/// An adapter that was handed over; this port of it is port 0.
fn handed_over(port: usize) -> Tested {
    let mut adapter = Adapter::new(SoftwareAdapter::new(), port, Vec::new());
    adapter.hand_over().unwrap();
    adapter
}

/// Whether a reading shows so, within as many as the server makes.
fn shows(adapter: &mut Tested, register: Register, is_so: impl Fn(u32) -> bool) -> bool {
    (0..READINGS).any(|_| is_so(adapter.read(register)))
}

fn has_link(shown: u32) -> bool {
    shown & detection::MASK == detection::LINK
}

/// Boots port 0 as the server does, and says what fails.
fn boot(adapter: &mut Tested) -> Result<(), &'static str> {
    let command = adapter.read(CMD);
    adapter.write(CMD, command | cmd::FRE);
    if adapter.read(CMD) & cmd::FR == 0 {
        return Err("FR doesn't rise with FRE");
    }
    adapter.write(SCTL, detection::COMRESET);
    adapter.write(SCTL, 0);
    if !shows(adapter, SSTS, has_link) {
        return Err("no link");
    }
    if !shows(adapter, TFD, |shown| shown & (task_file::BSY | task_file::DRQ) == 0) {
        return Err("no first FIS");
    }
    adapter.write(SERR, !0);
    adapter.write(IS, !0);
    let command = adapter.read(CMD);
    adapter.write(CMD, command | cmd::ST);
    if adapter.read(CMD) & cmd::CR == 0 {
        return Err("CR doesn't rise with ST");
    }
    Ok(())
}

fn booted() -> Tested {
    let mut adapter = handed_over(DISK);
    assert_eq!(boot(&mut adapter), Ok(()));
    adapter
}

/// The server's own reset, and whether it ends.
fn reset(adapter: &mut Tested) -> bool {
    adapter.write(Register::Ghc, ghc::AE | ghc::HR);
    shows(adapter, Register::Ghc, |shown| shown & ghc::HR == 0)
}

#[track_caller]
fn is_never_done(what: &str) {
    let mut adapter = booted();
    assert!(reset(&mut adapter));
    assert!(!adapter.bus.faults.contains(&what), "{what}");
}

#[test]
fn p8_the_firmware_gives_the_adapter_up_first() {
    is_never_done("a write while the firmware has the adapter");
}

#[test]
fn p8_ports_are_stopped_before_the_reset() {
    let mut adapter = Adapter::new(SoftwareAdapter::new(), DISK, Vec::new());
    adapter.hand_over().unwrap();
    assert!(!adapter.bus.faults.contains(&"a reset while a port runs"));
    assert!(!adapter.bus.faults.contains(&"FRE cleared while CR is one"));
}

#[test]
fn p8_the_adapter_is_reset_before_the_server_has_it() {
    let adapter = handed_over(DISK);
    // It loses CAP then.
    assert_ne!(adapter.bus.cap, CAPABILITIES);
    assert_eq!(adapter.bus.ports[DISK].task_file, 0x7f);
}

#[test]
fn p8_a_port_that_is_not_idle_is_refused() {
    let mut software = SoftwareAdapter::new();
    software.stays_active = true;
    assert!(Adapter::new(software, DISK, Vec::new()).hand_over().unwrap_err().contains("port 5 isn't idle"));
    let mut adapter = handed_over(DISK);
    adapter.bus.ports[OTHER_DISK].command |= cmd::FR;
    assert!(adapter.is_idle().is_err());
}

#[test]
fn p8_no_port_interrupts() {
    let adapter = handed_over(DISK);
    assert_eq!([adapter.bus.ports[DISK].enabled, adapter.bus.ports[OTHER_DISK].enabled], [0, 0]);
}

#[test]
fn p8_an_adapter_that_is_asleep_or_stuck_is_refused() {
    let mut asleep = SoftwareAdapter::new();
    asleep.gone = Some(!0);
    assert!(Adapter::new(asleep, DISK, Vec::new()).hand_over().unwrap_err().contains("asleep"));
    let mut stuck = SoftwareAdapter::new();
    stuck.is_stuck = true;
    assert!(Adapter::new(stuck, DISK, Vec::new()).hand_over().unwrap_err().contains("doesn't end its reset"));
}

#[test]
fn p9_ahci_is_enabled_before_a_port_is_written() {
    is_never_done("a write to a port without AE");
}

#[test]
fn p9_a_reset_after_which_ahci_stays_off_does_not_end() {
    let mut adapter = booted();
    adapter.bus.enables_after = u32::MAX;
    assert!(!reset(&mut adapter));
}

#[test]
fn p10_capabilities_and_ports_are_kept_over_a_reset() {
    let mut adapter = booted();
    assert!(reset(&mut adapter));
    assert_ne!(adapter.bus.pi, PORTS);
    assert_eq!(adapter.read(Register::Cap), CAPABILITIES);
    assert_eq!(adapter.read(Register::Pi) & !0xf, PORTS & !0xf);
    assert_eq!(boot(&mut adapter), Ok(()));
}

#[test]
fn p10_capabilities_and_ports_are_written_again() {
    let mut software = SoftwareAdapter::new();
    software.is_writable = true;
    let mut adapter = Adapter::new(software, DISK, Vec::new());
    adapter.hand_over().unwrap();
    assert_eq!((adapter.bus.cap, adapter.bus.pi), (CAPABILITIES, PORTS));
}

#[test]
fn p10_an_adapter_that_lost_its_ports_is_refused() {
    let mut software = SoftwareAdapter::new();
    software.pi = 0;
    assert!(Adapter::new(software, DISK, Vec::new()).hand_over().unwrap_err().contains("PI is zero"));
}

#[test]
fn p11_another_port_is_shown_as_port_0() {
    let mut adapter = handed_over(OTHER_DISK);
    assert_eq!(boot(&mut adapter), Ok(()));
    assert!(adapter.bus.ports[OTHER_DISK].command & cmd::ST != 0);
    assert!(adapter.bus.ports[DISK].command & cmd::ST == 0);
    assert_eq!(adapter.read(Register::Port(OTHER_DISK, PortRegister::Cmd)) & cmd::ST, 0);
}

#[test]
fn p11_a_port_that_is_not_there_has_no_disk() {
    let mut adapter = handed_over(DISK);
    assert_eq!(adapter.read(Register::Pi), PORTS | 0xf);
    let [command, status, link] =
        [PortRegister::Cmd, PortRegister::Tfd, PortRegister::Ssts].map(|it| Register::Port(2, it));
    adapter.write(command, cmd::FRE);
    assert_eq!(adapter.read(command), cmd::FRE | cmd::FR);
    assert_eq!((adapter.read(status), adapter.read(link)), (0x7f, 0));
    assert_eq!(adapter.bus.ports[2].command & cmd::FRE, 0);
}

#[test]
fn p12_a_reset_ends_within_64_readings() {
    let mut adapter = booted();
    assert!(reset(&mut adapter));
    adapter.bus.is_stuck = true;
    assert!(!reset(&mut adapter));
}

#[test]
fn p12_engines_stop_within_64_readings() {
    let mut adapter = booted();
    let command = adapter.read(CMD);
    adapter.write(CMD, command & !cmd::ST);
    assert!(shows(&mut adapter, CMD, |shown| shown & cmd::CR == 0));
    let command = adapter.read(CMD);
    adapter.write(CMD, command & !cmd::FRE);
    assert!(shows(&mut adapter, CMD, |shown| shown & cmd::FR == 0));
}

#[test]
fn p12_a_command_may_take_seconds() {
    let mut adapter = booted();
    adapter.write(CI, 1);
    let begun = adapter.bus.clock;
    assert!(!shows(&mut adapter, CI, |shown| shown & 1 == 0));
    assert!(adapter.bus.clock - begun > Duration::from_secs(5));
    // Where it has failed nothing is waited for.
    adapter.bus.ports[DISK].task_file = 0x0451;
    let begun = adapter.bus.clock;
    assert!(!shows(&mut adapter, CI, |shown| shown & 1 == 0));
    assert!(adapter.bus.clock - begun < Duration::from_millis(1));
}

#[test]
fn p12_a_disk_that_stays_busy_is_waited_for() {
    let mut adapter = booted();
    adapter.bus.ports[DISK].task_file = 0xd0;
    let begun = adapter.bus.clock;
    assert!(!shows(&mut adapter, TFD, |shown| shown & task_file::BSY == 0));
    assert!(adapter.bus.clock - begun > Duration::from_secs(5));
}

#[test]
fn p12_a_port_without_a_disk_is_not_waited_for_long() {
    let mut adapter = handed_over(4);
    let begun = adapter.bus.clock;
    assert_eq!(boot(&mut adapter), Err("no link"));
    let took = adapter.bus.clock - begun;
    assert!(took > Duration::from_secs(1) && took < Duration::from_secs(3), "{took:?}");
}

#[test]
fn p13_comreset_lasts_a_millisecond() {
    let mut adapter = handed_over(DISK);
    adapter.write(SCTL, detection::COMRESET);
    let begun = adapter.bus.clock;
    adapter.write(SCTL, 0);
    assert!(adapter.bus.clock - begun >= Duration::from_millis(1));
    // Else the disk doesn't see it.
    assert_eq!(boot(&mut adapter), Ok(()));
}

#[test]
fn p14_the_first_fis_is_let_come() {
    let mut adapter = handed_over(DISK);
    assert_eq!(boot(&mut adapter), Ok(()));
}

#[test]
fn p14_no_link_is_shown_before_the_first_fis() {
    let mut adapter = handed_over(DISK);
    adapter.write(SCTL, detection::COMRESET);
    adapter.write(SCTL, 0);
    let looks: Vec<u32> = (0..READINGS).map(|_| adapter.read(SSTS) & detection::MASK).collect();
    let link = looks.iter().position(|shown| *shown == detection::LINK).unwrap();
    // DET 1, too, is shown as 0.
    assert!(looks[..link].iter().all(|shown| *shown == 0), "{looks:?}");
    assert_eq!(adapter.read(TFD) & task_file::BSY, 0);
}

#[test]
fn p14_what_was_cleared_for_it_is_shown_until_the_server_clears_it() {
    let mut adapter = handed_over(DISK);
    adapter.write(SCTL, detection::COMRESET);
    adapter.write(SCTL, 0);
    assert!(shows(&mut adapter, SSTS, has_link));
    assert_eq!(adapter.bus.ports[DISK].error, 0);
    let both = sata_error::X | sata_error::N;
    assert_eq!(adapter.read(SERR), both);
    assert_eq!(adapter.read(IS) & (cause::PCS | cause::PRCS), cause::PCS | cause::PRCS);
    adapter.write(SERR, both);
    assert_eq!((adapter.read(SERR), adapter.read(IS)), (0, 0));
}

#[test]
fn p15_an_adapter_that_has_gone_reads_as_ones() {
    for nothing in [0, !0] {
        for (register, set) in [(CI, CI), (SACT, SACT)] {
            let mut adapter = booted();
            adapter.write(set, 4);
            assert_eq!(adapter.read(register), 4);
            adapter.bus.gone = Some(nothing);
            assert_eq!(adapter.read(register), !0);
            assert_eq!([IS, SSTS, Register::Cap].map(|it| adapter.read(it)), [!0; 3]);
        }
    }
}

#[test]
fn p15_a_reset_by_others_is_not_taken_for_done() {
    let mut adapter = booted();
    adapter.write(CI, 4);
    adapter.bus.write(Register::Ghc, ghc::HR);
    adapter.bus.sleep(Duration::from_secs(1));
    assert_eq!(adapter.read(CI), !0);
}

#[test]
fn p17_a_device_fault_is_not_taken_for_done() {
    let mut adapter = booted();
    adapter.write(CI, 2);
    adapter.bus.ports[DISK].issued = 0;
    adapter.bus.ports[DISK].task_file = 0x70;
    assert_eq!(adapter.read(CI), 2);
    assert_eq!(adapter.read(IS) & cause::IFS, cause::IFS);
    adapter.write(IS, !0);
    assert_eq!(adapter.read(IS) & cause::IFS, 0);
    // The server stops the port.
    let command = adapter.read(CMD);
    adapter.write(CMD, command & !cmd::ST);
    assert_eq!(adapter.read(CI), 0);
}

#[test]
fn p17_a_command_without_a_fault_is_done() {
    let mut adapter = booted();
    adapter.write(CI, 2);
    adapter.bus.ports[DISK].issued = 0;
    assert_eq!((adapter.read(CI), adapter.read(IS)), (0, 0));
}

#[test]
fn p18_the_status_of_a_failed_command_is_that_of_the_definitions() {
    let mut adapter = booted();
    for (own, shown) in [(0x0451, 0x0441), (0x4075, 0x4041), (0x04d1, 0x04c1), (0x0459, 0x0449), (0x0050, 0x0050)] {
        adapter.bus.ports[DISK].task_file = own;
        assert_eq!(adapter.read(TFD), shown);
    }
}

#[test]
fn p19_overflows_and_host_bus_data_errors_are_fatal_causes_of_the_definitions() {
    let mut adapter = booted();
    for (own, shown) in [(cause::OFS, cause::IFS), (cause::HBDS, cause::HBFS)] {
        adapter.bus.ports[DISK].causes = own;
        assert_eq!(adapter.read(IS), shown);
        adapter.write(IS, shown);
        assert_eq!((adapter.bus.ports[DISK].causes, adapter.read(IS)), (0, 0));
    }
}

#[test]
fn p20_no_link_goes_to_sleep() {
    let mut adapter = booted();
    adapter.bus.sleep(Duration::from_secs(30));
    assert_eq!(adapter.read(SERR), 0);
    assert_eq!(adapter.bus.ports[DISK].control & NO_SLEEP, NO_SLEEP);
    // Nor that of a port that isn't served.
    assert_eq!(adapter.bus.ports[OTHER_DISK].control & NO_SLEEP, NO_SLEEP);
    let command = adapter.read(CMD);
    adapter.write(CMD, command | cmd::ALPE | cmd::ASP | cmd::ICC);
    assert_eq!(adapter.read(CMD) & (cmd::ALPE | cmd::ASP | cmd::ICC), 0);
}

#[test]
fn p21_a_late_change_comes_before_the_link_is_shown() {
    let mut adapter = booted();
    adapter.bus.sleep(Duration::from_secs(1));
    assert_eq!((adapter.read(SERR), adapter.read(IS)), (0, 0));
}

#[test]
fn p22_disks_spin_up_and_have_power() {
    let mut adapter = booted();
    assert!(reset(&mut adapter));
    assert_eq!(adapter.bus.ports[DISK].command & (cmd::SUD | cmd::POD), cmd::SUD | cmd::POD);
    assert_eq!(adapter.bus.ports[OTHER_DISK].command & (cmd::SUD | cmd::POD), cmd::SUD);
    assert_eq!(boot(&mut adapter), Ok(()));
}

#[test]
fn p23_an_exchanged_disk_gets_no_command() {
    let mut adapter = booted();
    adapter.bus.ports[DISK].error = sata_error::X;
    adapter.write(CI, 1);
    assert_eq!((adapter.bus.ports[DISK].issued, adapter.read(CI)), (0, 1));
    // After COMRESET it does.
    let command = adapter.read(CMD);
    adapter.write(CMD, command & !cmd::ST);
    assert!(shows(&mut adapter, CMD, |shown| shown & cmd::CR == 0));
    assert_eq!(boot(&mut adapter), Ok(()));
    adapter.write(CI, 1);
    assert_eq!(adapter.bus.ports[DISK].issued, 1);
}

#[test]
fn all_ends_with_a_reset() {
    let mut adapter = booted();
    adapter.quiet();
    assert_eq!(adapter.bus.ports[DISK].command & (cmd::ST | cmd::FRE | cmd::CR | cmd::FR), 0);
}
