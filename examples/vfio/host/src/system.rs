//! What Linux is asked for beside files: mappings, and VFIO's calls of ioctl (<linux/vfio.h>). All that is `unsafe`
//! stands here.
use std::ffi::{c_int, c_ulong, c_void, CStr};
use std::fs::File;
use std::io::{Error, Result};
use std::os::fd::{AsRawFd, FromRawFd};
use std::ptr::{self, NonNull};
use std::sync::atomic::{fence, Ordering};

extern "C" {
    fn ioctl(fd: c_int, request: c_ulong, ...) -> c_int;
    fn mmap(at: *mut c_void, length: usize, protection: c_int, flags: c_int, fd: c_int, offset: i64) -> *mut c_void;
    fn munmap(at: *mut c_void, length: usize) -> c_int;
    fn mlock(at: *const c_void, length: usize) -> c_int;
}

const PROT_READ_WRITE: c_int = 1 | 2;
const MAP_SHARED: c_int = 1;
const MAP_ANONYMOUS: c_int = 0x20;
const MAP_POPULATE: c_int = 0x8000;

// VFIO's requests are _IO(';', 100 + n).
const GET_API_VERSION: c_ulong = 0x3b64;
const CHECK_EXTENSION: c_ulong = 0x3b65;
const SET_IOMMU: c_ulong = 0x3b66;
const GROUP_GET_STATUS: c_ulong = 0x3b67;
const GROUP_SET_CONTAINER: c_ulong = 0x3b68;
const GROUP_GET_DEVICE_FD: c_ulong = 0x3b6a;
const DEVICE_GET_REGION_INFO: c_ulong = 0x3b6c;
const IOMMU_GET_INFO: c_ulong = 0x3b70;
const IOMMU_MAP_DMA: c_ulong = 0x3b71;
const API_VERSION: c_int = 0;
const TYPE1_IOMMU: c_ulong = 1;
const READ_WRITE: u32 = 1 | 2;

/// Bytes that are mapped, and that a device may read and write at any time: each access is volatile.
pub struct Mapping {
    at: NonNull<u8>,
    length: usize,
}

impl Mapping {
    fn new(length: usize, flags: c_int, fd: c_int, offset: i64) -> Result<Mapping> {
        // SAFETY: the kernel chooses the place, so nothing that is mapped already changes.
        let at = unsafe { mmap(ptr::null_mut(), length, PROT_READ_WRITE, MAP_SHARED | flags, fd, offset) };
        match NonNull::new(at.cast()) {
            Some(at) if at.as_ptr() as isize != -1 => Ok(Mapping { at, length }),
            _ => Err(Error::last_os_error()),
        }
    }

    /// Zeros of the process's own.
    pub fn anonymous(length: usize) -> Result<Mapping> {
        Mapping::new(length, MAP_ANONYMOUS | MAP_POPULATE, -1, 0)
    }

    /// A part of a file, or of what a device's file gives.
    pub fn of_file(file: &File, offset: u64, length: usize) -> Result<Mapping> {
        Mapping::new(length, 0, file.as_raw_fd(), offset as i64)
    }

    /// Keeps the bytes in memory.
    pub fn lock(&self) -> Result<()> {
        // SAFETY: the range is this mapping's.
        told(unsafe { mlock(self.at.as_ptr().cast(), self.length) }).map(drop)
    }

    pub fn length(&self) -> usize {
        self.length
    }

    fn word(&self, offset: usize) -> *mut u32 {
        assert!(offset & 3 == 0 && offset + 4 <= self.length);
        // SAFETY: the place is within the mapping.
        unsafe { self.at.as_ptr().add(offset).cast() }
    }

    /// A register of 32 bits. What the device wrote to memory before is seen by loads behind it (P-3).
    pub fn read(&self, offset: usize) -> u32 {
        // SAFETY: the place is within the mapping, and a multiple of four behind its beginning, which is a page's.
        let value = unsafe { self.word(offset).read_volatile() };
        fence(Ordering::SeqCst);
        u32::from_le(value)
    }

    /// Writes a register of 32 bits. The device sees the stores before it (P-3).
    pub fn write(&self, offset: usize, value: u32) {
        fence(Ordering::SeqCst);
        // SAFETY: as in `read`.
        unsafe { self.word(offset).write_volatile(value.to_le()) }
    }

    fn has(&self, offset: usize, count: usize) -> bool {
        offset.checked_add(count).is_some_and(|end| end <= self.length)
    }

    /// Copies bytes of memory out; nothing where they aren't all there.
    pub fn load(&self, offset: usize, out: &mut [u8]) -> Option<()> {
        if !self.has(offset, out.len()) {
            return None;
        }
        fence(Ordering::SeqCst);
        for (place, byte) in out.iter_mut().enumerate() {
            // SAFETY: the place is within the mapping.
            *byte = unsafe { self.at.as_ptr().add(offset + place).read_volatile() };
        }
        Some(())
    }

    /// Copies bytes into memory; nothing where there is no room for all.
    pub fn store(&self, offset: usize, bytes: &[u8]) -> Option<()> {
        if !self.has(offset, bytes.len()) {
            return None;
        }
        for (place, byte) in bytes.iter().enumerate() {
            // SAFETY: the place is within the mapping.
            unsafe { self.at.as_ptr().add(offset + place).write_volatile(*byte) }
        }
        fence(Ordering::SeqCst);
        Some(())
    }
}

impl Drop for Mapping {
    fn drop(&mut self) {
        // SAFETY: the range is this mapping's, and nobody has a pointer into it any more.
        unsafe { munmap(self.at.as_ptr().cast(), self.length) };
    }
}

fn told(result: c_int) -> Result<c_int> {
    if result < 0 {
        Err(Error::last_os_error())
    } else {
        Ok(result)
    }
}

#[repr(C)]
struct GroupStatus {
    argsz: u32,
    flags: u32,
}

#[repr(C)]
#[derive(Default)]
struct RegionInfo {
    argsz: u32,
    flags: u32,
    index: u32,
    cap_offset: u32,
    size: u64,
    offset: u64,
}

#[repr(C)]
struct DmaMap {
    argsz: u32,
    flags: u32,
    vaddr: u64,
    iova: u64,
    size: u64,
}

/// Where a part of a device stands in its file.
#[derive(Clone, Copy)]
pub struct Region {
    pub offset: u64,
    pub size: u64,
}

/// Whether the container is of the version that is known here, with an IOMMU of type 1.
pub fn has_type1(container: &File) -> bool {
    let fd = container.as_raw_fd();
    // SAFETY: neither request takes a pointer.
    unsafe { ioctl(fd, GET_API_VERSION) == API_VERSION && ioctl(fd, CHECK_EXTENSION, TYPE1_IOMMU) == 1 }
}

/// Whether each function of the group is bound to VFIO or to nothing.
pub fn is_viable(group: &File) -> Result<bool> {
    let mut status = GroupStatus { argsz: size_of::<GroupStatus>() as u32, flags: 0 };
    // SAFETY: the request takes such a record, whose size stands in it.
    told(unsafe { ioctl(group.as_raw_fd(), GROUP_GET_STATUS, &mut status) })?;
    Ok(status.flags & 1 == 1)
}

/// Puts the group into the container, whose IOMMU is then one of type 1.
pub fn set_container(group: &File, container: &File) -> Result<()> {
    let fd = container.as_raw_fd();
    // SAFETY: the request takes a pointer to a file descriptor.
    told(unsafe { ioctl(group.as_raw_fd(), GROUP_SET_CONTAINER, &fd) })?;
    // SAFETY: the request takes no pointer.
    told(unsafe { ioctl(fd, SET_IOMMU, TYPE1_IOMMU) }).map(drop)
}

/// What the container tells of its IOMMU: a record of `INFO_BYTES`, or less, with its capabilities.
pub fn iommu_info(container: &File) -> Result<Vec<u8>> {
    const WORDS: usize = 512;
    let mut words = [0u64; WORDS];
    // The record begins with its size, as far as there is room.
    words[0] = size_of_val(&words) as u64;
    // SAFETY: the request takes a record that begins with how many bytes of it may be written.
    told(unsafe { ioctl(container.as_raw_fd(), IOMMU_GET_INFO, words.as_mut_ptr()) })?;
    Ok(words.iter().flat_map(|word| word.to_ne_bytes()).collect())
}

/// Has the container's devices reach this memory from bus address 0 on.
pub fn map_dma(container: &File, memory: &Mapping) -> Result<()> {
    let request = DmaMap {
        argsz: size_of::<DmaMap>() as u32,
        flags: READ_WRITE,
        vaddr: memory.at.as_ptr() as u64,
        iova: 0,
        size: memory.length as u64,
    };
    // SAFETY: the request takes such a record; the range is the mapping's, whose bytes are accessed as ones that
    // devices change.
    told(unsafe { ioctl(container.as_raw_fd(), IOMMU_MAP_DMA, &request) }).map(drop)
}

/// The file of a function of the group.
pub fn device(group: &File, name: &CStr) -> Result<File> {
    // SAFETY: the request takes a text that ends with a zero.
    let fd = told(unsafe { ioctl(group.as_raw_fd(), GROUP_GET_DEVICE_FD, name.as_ptr()) })?;
    // SAFETY: the descriptor is new, and nobody else has it.
    Ok(unsafe { File::from_raw_fd(fd) })
}

/// Where a region of the device stands: a base address register, or configuration space.
pub fn region(device: &File, index: u32) -> Result<Region> {
    let mut info = RegionInfo { argsz: size_of::<RegionInfo>() as u32, index, ..RegionInfo::default() };
    // SAFETY: the request takes such a record, whose size stands in it.
    told(unsafe { ioctl(device.as_raw_fd(), DEVICE_GET_REGION_INFO, &mut info) })?;
    Ok(Region { offset: info.offset, size: info.size })
}

#[cfg(test)]
mod tests {
    use super::*;

    #[test]
    fn only_what_is_mapped_is_accessed() {
        let memory = Mapping::anonymous(4096).unwrap();
        let mut bytes = [1; 4];
        assert_eq!(memory.store(4092, &[1, 2, 3, 4]), Some(()));
        assert_eq!(memory.load(4092, &mut bytes), Some(()));
        assert_eq!((bytes, memory.read(4092)), ([1, 2, 3, 4], 0x0403_0201));
        assert_eq!(memory.store(4093, &bytes), None);
        assert_eq!(memory.load(usize::MAX, &mut bytes), None);
    }
}
