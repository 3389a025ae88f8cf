//! What the host needs of an adapter's registers and of a clock.
use crate::registers::Register;
use std::time::Duration;

/// The way to the registers, and the time that passes between accesses.
pub trait Bus {
    /// What the register shows now.
    fn read(&mut self, register: Register) -> u32;
    /// Writes the register. The adapter has the value before the next reading.
    fn write(&mut self, register: Register, value: u32);
    /// How many bytes of registers there are.
    fn length(&self) -> usize;
    /// The time since some moment.
    fn now(&self) -> Duration;
    fn sleep(&mut self, time: Duration);
}
