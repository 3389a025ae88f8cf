//! What Linux tells of a disk and its adapter while it has them, and the configuration for `follow` that comes of it.
use crate::page;
use crate::registers::cap;
use std::fs::{self, OpenOptions};
use std::io;
use std::os::unix::fs::OpenOptionsExt;
use std::path::{Path, PathBuf};

/// Where the disk's page stands in the page of vital product data that libata makes of it (SAT-3, 12.4.2).
const PAGE_AT: usize = 60;
/// Opening a block device with it fails where somebody has it: a mount, swap, md, dm or LVM.
const O_EXCL: i32 = 0o200;

/// A disk, as Linux has it.
pub struct Described {
    /// The adapter's function, as `0000:00:17.0`.
    pub function: String,
    /// The adapter's port.
    pub port: usize,
    capabilities: u32,
    identify: [u8; page::BYTES],
}

fn tried<T>(what: &Path, result: io::Result<T>) -> Result<T, String> {
    result.map_err(|error| format!("{}: {error}", what.display()))
}

fn text(path: PathBuf) -> Result<String, String> {
    Ok(tried(&path, fs::read_to_string(&path))?.trim().into())
}

/// The part of a path that begins so, and is followed by a number, and the one before it.
fn part<'a>(path: &'a Path, begins: &str) -> Option<(&'a str, &'a str)> {
    let parts: Vec<&str> = path.iter().filter_map(|part| part.to_str()).collect();
    let is_part = |it: &str| it.strip_prefix(begins).is_some_and(|rest| rest.parse::<u32>().is_ok());
    parts.windows(2).find(|pair| is_part(pair[1])).map(|pair| (pair[0], pair[1]))
}

/// What is known of a disk, as `sdb`.
pub fn describe(disk: &str) -> Result<Described, String> {
    let name = disk.strip_prefix("/dev/").unwrap_or(disk);
    let link = PathBuf::from(format!("/sys/block/{name}/device"));
    let device = tried(&link, fs::canonicalize(&link))?;
    let (function, ata) = part(&device, "ata").ok_or_else(|| format!("{name} isn't at an adapter of libata's"))?;
    let (_, host) = part(&device, "host").ok_or_else(|| format!("{name} has no SCSI host"))?;
    // libata counts from 1.
    let number = text(PathBuf::from(format!("/sys/class/ata_port/{ata}/port_no")))?;
    let port = number.parse::<usize>().ok().and_then(|number| number.checked_sub(1));
    let capabilities = text(PathBuf::from(format!("/sys/class/scsi_host/{host}/ahci_host_caps")))?;
    let at = device.join("vpd_pg89");
    let told = tried(&at, fs::read(&at))?;
    let identify = told.get(PAGE_AT..PAGE_AT + page::BYTES).and_then(|page| page.try_into().ok());
    let described = Described {
        function: function.into(),
        port: port.ok_or_else(|| format!("{ata} has the port {number}"))?,
        capabilities: u32::from_str_radix(&capabilities, 16).map_err(|_| format!("{host} has CAP {capabilities}"))?,
        identify: identify.ok_or_else(|| format!("{} has no page of IDENTIFY DEVICE", at.display()))?,
    };
    if !page::has_small_sectors(&described.identify) {
        return Err(format!("{name} has sectors of another size than 512 bytes, which the server doesn't know"));
    }
    Ok(described)
}

/// Whether nobody has the block device.
pub fn is_unused(path: &str) -> Result<(), String> {
    let opened = OpenOptions::new().read(true).custom_flags(O_EXCL).open(path);
    opened.map(drop).map_err(|error| format!("{path} is in use: {error}"))
}

impl Described {
    pub fn serial(&self) -> String {
        page::serial(&self.identify)
    }

    pub fn sectors(&self) -> u64 {
        page::sectors(&self.identify)
    }

    /// The configuration with which `examples/qemu/first.script` is played on the disk.
    pub fn configuration(&self) -> String {
        let slots = (self.capabilities & cap::NCS) / (cap::NCS & cap::NCS.wrapping_neg()) + 1;
        let ncq = self.capabilities & cap::SNCQ != 0 && page::has_ncq(&self.identify);
        let (depth, trim) = (page::depth(&self.identify), page::trim(&self.identify));
        format!(
            "# The disk {} in port {} of {}, as port 0.\n\
             frames = 512\nslots = {slots}\nncq = {ncq}\ndepth = {depth}\ntrim = \"{trim}\"\n\
             [[port]]\nnumber = 0\nserial = \"IMAGEDISK\"\n\
             [[client]]\nid = 1\nfirst_frame = 76\nframes = 40\n\
             [[grant]]\nclient = 1\nnumber = 0\nport = 0\nfirst = 100\ncount = 64\nrights = \"rwf\"\n\
             [[client]]\nid = 2\nfirst_frame = 116\nframes = 40\n\
             [[grant]]\nclient = 2\nnumber = 0\nport = 0\nfirst = 140\ncount = 60\nrights = \"r\"\n",
            self.serial(),
            self.port,
            self.function
        )
    }
}

#[cfg(test)]
mod tests {
    use super::*;

    #[test]
    fn a_configuration_is_what_the_disk_and_the_adapter_are() {
        let device = Path::new("/sys/devices/pci0000:00/0000:00:1f.2/ata7/host6/target6:0:0/6:0:0:0");
        assert_eq!(part(device, "ata"), Some(("0000:00:1f.2", "ata7")));
        assert_eq!(part(device, "host"), Some(("ata7", "host6")));
        let mut identify = [0; page::BYTES];
        (identify[150], identify[153]) = (31, 1);
        let mut described = Described { function: "0000:00:1f.2".into(), port: 2, capabilities: 0xc014_0705, identify };
        assert!(described.configuration().contains("slots = 8\nncq = true\ndepth = 32\ntrim = \"none\"\n"));
        described.capabilities &= !cap::SNCQ;
        assert!(described.configuration().contains("ncq = false\n"));
    }
}
