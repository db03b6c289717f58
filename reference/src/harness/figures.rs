//! Figures as text: 16 upper-case hex digits of an f64's bits.

/// The one NaN that is ever printed.
pub const NAN_BITS: u64 = 0x7FF8_0000_0000_0000;
const INFINITY_BITS: u64 = 0x7FF0_0000_0000_0000;
const MAGNITUDE: u64 = 0x7FFF_FFFF_FFFF_FFFF;

/// `bits`, or [`NAN_BITS`] where they are a NaN's. The test is on the bits:
/// the compiler may take `if v.is_nan() { NAN } else { v }` for `v`.
pub fn one_nan(bits: u64) -> u64 {
    if bits & MAGNITUDE > INFINITY_BITS {
        NAN_BITS
    } else {
        bits
    }
}

/// The bits under which a figure is listed: zeros as plus zero, one NaN.
pub fn listed_bits(v: f64) -> u64 {
    let bits = v.to_bits();
    if bits & MAGNITUDE == 0 {
        0
    } else {
        one_nan(bits)
    }
}

/// A figure of the listing.
pub fn listed(v: f64) -> String {
    hex(listed_bits(v))
}

/// A figure as it was read: minus zero stays, one NaN.
pub fn as_read(v: f64) -> String {
    hex(one_nan(v.to_bits()))
}

pub fn hex(bits: u64) -> String {
    format!("{bits:016X}")
}

/// The bits written in exactly 16 upper-case hex digits.
pub fn parse_hex(field: &[u8]) -> Option<u64> {
    if field.len() != 16 {
        return None;
    }
    field.iter().try_fold(0u64, |bits, &c| {
        let digit = match c {
            b'0'..=b'9' => c - b'0',
            b'A'..=b'F' => c - b'A' + 10,
            _ => return None,
        };
        Some(bits << 4 | u64::from(digit))
    })
}

/// The whole number written in one to nine decimal digits.
pub fn parse_whole(field: &[u8]) -> Option<usize> {
    if field.is_empty() || field.len() > 9 {
        return None;
    }
    field.iter().try_fold(0usize, |n, &c| {
        c.is_ascii_digit().then(|| n * 10 + usize::from(c - b'0'))
    })
}
