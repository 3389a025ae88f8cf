//! The page that a disk sends for IDENTIFY DEVICE (ACS-3, 7.12.7): 256 words, of which the low byte stands first.

pub const BYTES: usize = 512;
/// Words 10 to 19.
const SERIAL: std::ops::Range<usize> = 20..40;
/// Word 255: where its low byte is this, its high byte makes the sum of all bytes zero (ACS-3, 7.12.7.82).
const HAS_SUM: (usize, u8) = (510, 0xa5);

fn word(page: &[u8; BYTES], number: usize) -> u16 {
    u16::from_le_bytes([page[2 * number], page[2 * number + 1]])
}

fn bit(page: &[u8; BYTES], number: usize, bit: u32) -> bool {
    word(page, number) >> bit & 1 == 1
}

/// A text with its bytes in the other order by pairs, as a page has it.
fn by_pairs(text: &[u8]) -> Vec<u8> {
    text.chunks_exact(2).flat_map(|pair| [pair[1], pair[0]]).collect()
}

/// The serial number, without the spaces around it.
pub fn serial(page: &[u8; BYTES]) -> String {
    String::from_utf8_lossy(&by_pairs(&page[SERIAL])).trim().into()
}

/// Has a page tell another serial number; its sum stays zero, where it has one.
pub fn rename(page: &mut [u8; BYTES], told: &str) {
    page[SERIAL].copy_from_slice(&by_pairs(format!("{told:20}").as_bytes()));
    if page[HAS_SUM.0] == HAS_SUM.1 {
        page[BYTES - 1] = page[..BYTES - 1].iter().fold(0u8, |sum, byte| sum.wrapping_sub(*byte));
    }
}

/// Whether the disk does native command queuing (word 76, bit 8).
pub fn has_ncq(page: &[u8; BYTES]) -> bool {
    bit(page, 76, 8)
}

/// How many queued commands the disk takes (word 75).
pub fn depth(page: &[u8; BYTES]) -> u16 {
    word(page, 75) % 32 + 1
}

/// What the disk promises of trimmed sectors, as a configuration spells it (docs/FORMATS.md).
pub fn trim(page: &[u8; BYTES]) -> &'static str {
    let trims = bit(page, 169, 0) && word(page, 105) >= 1;
    match (trims, bit(page, 69, 14), bit(page, 69, 5)) {
        (false, ..) => "none",
        (true, true, true) => "full",
        (true, ..) => "weak",
    }
}

/// How many sectors there are (words 100 to 103).
pub fn sectors(page: &[u8; BYTES]) -> u64 {
    (100..104).rev().fold(0, |sum, number| sum << 16 | u64::from(word(page, number)))
}

/// Whether a logical sector has 512 bytes: where word 106, bit 12, is zero.
pub fn has_small_sectors(page: &[u8; BYTES]) -> bool {
    !(bit(page, 106, 14) && !bit(page, 106, 15) && bit(page, 106, 12))
}

#[cfg(test)]
mod tests {
    use super::*;

    fn page() -> [u8; BYTES] {
        let mut page = [0; BYTES];
        page[SERIAL].copy_from_slice(b"DS1-32              ");
        page[150] = 31;
        page[153] = 1;
        page[200..204].copy_from_slice(&[0x00, 0x60, 0x38, 0x3a]);
        page[510] = 0xa5;
        page
    }

    #[test]
    fn a_page_is_read() {
        let mut page = page();
        assert_eq!(serial(&page), "SD-123");
        assert_eq!((has_ncq(&page), depth(&page), trim(&page)), (true, 32, "none"));
        assert_eq!((sectors(&page), has_small_sectors(&page)), (0x3a38_6000, true));
        (page[338], page[210]) = (1, 8);
        assert_eq!(trim(&page), "weak");
        (page[138], page[139]) = (1 << 5, 1 << 6);
        assert_eq!(trim(&page), "full");
        page[213] = 0x50;
        assert!(!has_small_sectors(&page));
    }

    #[test]
    fn a_renamed_page_sums_to_zero() {
        let mut page = page();
        rename(&mut page, "IMAGEDISK");
        assert_eq!(serial(&page), "IMAGEDISK");
        assert_eq!(page.iter().fold(0u8, |sum, byte| sum.wrapping_add(*byte)), 0);
        assert_eq!(depth(&page), 32);
    }
}
