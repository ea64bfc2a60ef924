//! Lowercase hexadecimal digits, eight at a time in one word.

use crate::frame;

/// The same byte eight times.
const fn each(byte: u8) -> u64 {
    u64::from_ne_bytes([byte; 8])
}

/// The value of sixteen digits; none if one of them is no digit.
#[inline]
pub fn mask(digits: &[u8; 16]) -> Option<u64> {
    let (high, low) = digits.split_at(8);
    let (high, high_allowed) = eight(high.try_into().ok()?);
    let (low, low_allowed) = eight(low.try_into().ok()?);
    (high_allowed && low_allowed).then_some(high << 32 | low)
}

/// The value of eight digits, and whether all of them are digits.
#[inline]
fn eight(digits: [u8; 8]) -> (u64, bool) {
    let bytes = u64::from_be_bytes(digits);
    // Bit 6 tells letters, which count from 10 and whose low half from 1.
    let letters = bytes >> 6 & each(1);
    let values = (bytes & each(0x0f)) + 9 * letters;
    // Written again, the values give the same bytes only if these are digits;
    // the letters after f would have values above 15.
    (packed(values), written(values) == bytes && values & each(0xf0) == 0)
}

/// Eight values of a half byte each, moved together.
#[inline]
fn packed(values: u64) -> u64 {
    let bytes = (values | values >> 4) & 0x00ff_00ff_00ff_00ff;
    let pairs = (bytes | bytes >> 8) & 0x0000_ffff_0000_ffff;
    (pairs | pairs >> 16) & 0xffff_ffff
}

/// The sixteen digits of a mask.
#[inline]
pub fn of(mask: u64) -> [u8; 16] {
    let [high, low] = [mask >> 32, mask & 0xffff_ffff].map(|half| written(spread(half)));
    let mut digits = [0; 16];
    digits[..8].copy_from_slice(&high.to_be_bytes());
    digits[8..].copy_from_slice(&low.to_be_bytes());
    digits
}

/// The digits of eight values of a half byte each.
#[inline]
fn written(values: u64) -> u64 {
    let above_nine = (values + each(0x76)) >> 7 & each(1);
    values + each(b'0') + u64::from(b'a' - b'0' - 10) * above_nine
}

/// The eight half bytes of four bytes, one a byte: [`packed`] the other way.
#[inline]
fn spread(bytes: u64) -> u64 {
    let pairs = (bytes | bytes << 16) & 0x0000_ffff_0000_ffff;
    let bytes = (pairs | pairs << 8) & 0x00ff_00ff_00ff_00ff;
    (bytes | bytes << 4) & each(0x0f)
}

/// Whether these two digits are those of this byte.
#[inline]
pub fn are(digits: &[u8], byte: u8) -> bool {
    digits == frame::digits(byte)
}

#[cfg(test)]
mod tests {
    use super::*;

    fn mask_of(text: &[u8]) -> Option<u64> {
        mask(text.try_into().unwrap())
    }

    #[test]
    fn digits_stand_high_first() {
        assert_eq!(mask_of(b"0123456789abcdef"), Some(0x0123_4567_89ab_cdef));
        assert_eq!(mask_of(b"fedcba9876543210"), Some(0xfedc_ba98_7654_3210));
        assert_eq!(mask_of(b"c00000000000000f"), Some(0xc000_0000_0000_000f));
    }

    /// Every byte at every place, beside the least and the greatest digit.
    #[test]
    fn every_other_byte_is_refused() {
        for place in 0..16 {
            for byte in 0..=255u8 {
                for beside in [b'0', b'9', b'a', b'f'] {
                    let mut text = [beside; 16];
                    text[place] = byte;
                    let allowed = matches!(byte, b'0'..=b'9' | b'a'..=b'f');
                    let value = std::str::from_utf8(&text)
                        .ok()
                        .filter(|_| allowed)
                        .map(|text| u64::from_str_radix(text, 16).unwrap());
                    assert_eq!(mask_of(&text), value, "{byte:02x} at {place}");
                }
            }
        }
    }

    /// Every value of a byte at every place, beside others.
    #[test]
    fn a_mask_has_its_digits() {
        for place in (0..64).step_by(8) {
            for byte in 0..=255u64 {
                for beside in [0, u64::MAX, 0x0123_4567_89ab_cdef] {
                    let mask = beside & !(0xff << place) | byte << place;
                    assert_eq!(of(mask).as_slice(), format!("{mask:016x}").as_bytes());
                }
            }
        }
    }

    #[test]
    fn two_digits_are_those_of_one_byte() {
        assert!(are(b"1f", 0x1f) && are(b"a0", 0xa0));
        assert!(!are(b"1F", 0x1f) && !are(b"0a", 0xa0));
    }
}
