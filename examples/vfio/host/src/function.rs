//! A PCI function through Linux VFIO: its registers, its configuration space, and the memory that it may reach.
use crate::bus::Bus;
use crate::registers::Register;
use crate::system::{self, Mapping};
use std::ffi::CString;
use std::fs::{self, File, OpenOptions};
use std::io;
use std::os::unix::fs::FileExt;
use std::time::{Duration, Instant};

/// The index of BAR 5, where AHCI has its registers (AHCI 1.3.1, 2.1.11), and of configuration space.
const BAR5: u32 = 5;
const CONFIGURATION: u32 = 7;
/// The command register of configuration space (AHCI 1.3.1, 2.1.2), and its bits.
const COMMAND: u64 = 4;
const MEMORY_DECODING: u16 = 1 << 1;
const BUS_MASTER: u16 = 1 << 2;
const NO_INTX: u16 = 1 << 10;
/// The registers of one port at least.
const FEWEST_BYTES: u64 = 0x180;

/// The registers, with the machine's clock.
pub struct Registers {
    mapped: Mapping,
    begun: Instant,
}

impl Bus for Registers {
    fn read(&mut self, register: Register) -> u32 {
        self.mapped.read(register.offset())
    }

    fn write(&mut self, register: Register, value: u32) {
        self.mapped.write(register.offset(), value);
    }

    fn length(&self) -> usize {
        self.mapped.length()
    }

    fn now(&self) -> Duration {
        self.begun.elapsed()
    }

    fn sleep(&mut self, time: Duration) {
        std::thread::sleep(time);
    }
}

/// A function that was taken. Dropping it gives it back, before the memory goes.
pub struct Function {
    device: File,
    _group: File,
    _container: File,
    configuration: u64,
    pub memory: Mapping,
}

fn wrong<T>(what: String) -> io::Result<T> {
    Err(io::Error::other(what))
}

/// Says what was tried, where it fails.
fn tried<T>(what: &str, result: io::Result<T>) -> io::Result<T> {
    result.map_err(|error| io::Error::new(error.kind(), format!("{what}: {error}")))
}

fn open(path: &str) -> io::Result<File> {
    tried(path, OpenOptions::new().read(true).write(true).open(path))
}

/// The IOMMU group of a function.
fn group_of(name: &str) -> io::Result<String> {
    let link = fs::read_link(format!("/sys/bus/pci/devices/{name}/iommu_group"));
    let number = link.ok().and_then(|path| Some(path.file_name()?.to_string_lossy().into_owned()));
    let Some(number) = number else {
        return wrong(format!("{name} has no IOMMU group: there is no such function, or no IOMMU that is switched on"));
    };
    let kind = fs::read_to_string(format!("/sys/kernel/iommu_groups/{number}/name")).unwrap_or_default();
    if kind.trim() == "vfio-noiommu" {
        return wrong(format!("{name} has no IOMMU behind its group, so that it could reach all memory"));
    }
    Ok(number)
}

/// The ranges of bus addresses that may be mapped, the last one of each too: capability 1 of what the container tells.
fn usable(info: &[u8]) -> Vec<(u64, u64)> {
    const HAS_CAPABILITIES: u32 = 2;
    const RANGES: u32 = 1;
    let half = |at: usize| info.get(at..at + 4).map_or(0, |it| u32::from_ne_bytes(it.try_into().unwrap_or_default()));
    let whole = |at: usize| u64::from(half(at)) | u64::from(half(at + 4)) << 32;
    let mut ranges = Vec::new();
    let mut at = if half(4) & HAS_CAPABILITIES != 0 { half(16) as usize } else { 0 };
    while at != 0 && at < info.len() {
        if half(at) & 0xffff == RANGES {
            ranges.extend(
                (0..half(at + 8).min(64) as usize).map(|it| (whole(at + 16 + 16 * it), whole(at + 24 + 16 * it))),
            );
        }
        let next = half(at + 4) as usize;
        at = if next > at { next } else { 0 };
    }
    ranges
}

/// Whether the first so many bus addresses are usable. Kernels before 5.4 don't tell, and refuse the mapping then.
fn has_room(ranges: &[(u64, u64)], bytes: u64) -> bool {
    ranges.is_empty() || ranges.iter().any(|(first, last)| *first == 0 && *last >= bytes - 1)
}

impl Function {
    /// Takes the function with this name (as `0000:00:17.0`), which is bound to vfio-pci, and has its bus addresses
    /// from 0 on be so many bytes of locked memory, zeros at first (P-2). It is no bus master yet.
    pub fn take(name: &str, bytes: usize) -> io::Result<(Function, Registers)> {
        let number = group_of(name)?;
        let container = open("/dev/vfio/vfio")?;
        let group = tried("not bound to vfio-pci?", open(&format!("/dev/vfio/{number}")))?;
        if !system::has_type1(&container) {
            return wrong("VFIO is of another version, or has no IOMMU of type 1 (modprobe vfio_iommu_type1)".into());
        }
        if !tried("VFIO_GROUP_GET_STATUS", system::is_viable(&group))? {
            return wrong(format!(
                "group {number} isn't viable: all in it have to be bound to vfio-pci, or to nothing"
            ));
        }
        tried("VFIO_GROUP_SET_CONTAINER", system::set_container(&group, &container))?;
        let ranges = usable(&tried("VFIO_IOMMU_GET_INFO", system::iommu_info(&container))?);
        if !has_room(&ranges, bytes as u64) {
            return wrong(format!(
                "a reserved region lies over the frames, which end at {bytes:x}h: usable are {ranges:x?}"
            ));
        }
        let memory = tried("memory", Mapping::anonymous(bytes))?;
        tried("mlock (ulimit -l?)", memory.lock())?;
        tried("VFIO_IOMMU_MAP_DMA", system::map_dma(&container, &memory))?;
        let device = tried("VFIO_GROUP_GET_DEVICE_FD", system::device(&group, &CString::new(name)?))?;
        let bar = tried("BAR 5", system::region(&device, BAR5))?;
        if bar.size < FEWEST_BYTES {
            return wrong(format!("{name} has no registers of AHCI in BAR 5"));
        }
        let configuration = tried("configuration space", system::region(&device, CONFIGURATION))?.offset;
        let mapped = tried("BAR 5", Mapping::of_file(&device, bar.offset, bar.size as usize))?;
        let function = Function { device, _group: group, _container: container, configuration, memory };
        // Where firmware's lists are isn't mapped: nothing is moved before the adapter is idle.
        function.command(MEMORY_DECODING | NO_INTX, BUS_MASTER)?;
        Ok((function, Registers { mapped, begun: Instant::now() }))
    }

    /// P-1: the adapter may move data from now on. No interrupt is told, since nobody would serve the line.
    pub fn enable_bus_master(&self) -> io::Result<()> {
        self.command(BUS_MASTER, 0)
    }

    pub fn disable_bus_master(&self) -> io::Result<()> {
        self.command(0, BUS_MASTER)
    }

    /// Sets bits of the command register, and clears others.
    fn command(&self, set: u16, clear: u16) -> io::Result<()> {
        let mut bytes = [0; 2];
        self.device.read_exact_at(&mut bytes, self.configuration + COMMAND)?;
        let value = u16::from_le_bytes(bytes) & !clear | set;
        self.device.write_all_at(&value.to_le_bytes(), self.configuration + COMMAND)
    }
}

#[cfg(test)]
mod tests {
    use super::*;

    fn info(ranges: &[(u64, u64)]) -> Vec<u8> {
        let mut halves = vec![0u32, 2, 0, 0, 24, 0, 1 | 1 << 16, 0, ranges.len() as u32, 0];
        for (first, last) in ranges {
            halves.extend([*first as u32, (first >> 32) as u32, *last as u32, (last >> 32) as u32]);
        }
        halves.iter().flat_map(|half| half.to_ne_bytes()).collect()
    }

    #[test]
    fn a_region_over_the_frames_is_seen() {
        let of_intel = [(0, 0xfedf_ffff), (0xfef0_0000, 0x7f_ffff_ffff)];
        assert_eq!(usable(&info(&of_intel)), of_intel);
        assert!(has_room(&usable(&info(&of_intel)), 160 * 4096));
        assert!(!has_room(&usable(&info(&[(0, 0xfffe), (0x2_0000, 0xffff_ffff)])), 160 * 4096));
        assert!(!has_room(&usable(&info(&[(0x10_0000, 0xffff_ffff)])), 4096));
        assert!(has_room(&usable(&[0; 24]), 4096));
    }
}
