//! The widths of items, and fetching bits (document 01, "Bits and values").

/// The bits of a number with this span: the smallest k with 2^k above it.
#[inline]
pub fn number_width(span: u32) -> u32 {
    u32::BITS - span.leading_zeros()
}

/// The bits of an index below m, with m at least 1: the smallest k with 2^k at least m.
#[inline]
pub fn index_width(m: usize) -> u32 {
    usize::BITS - (m - 1).leading_zeros()
}

/// The number in `width` bits, at most 32, from a bit place on; the message has these bits.
#[inline]
pub(super) fn fetch(message: &[u8], place: usize, width: u32) -> u64 {
    if width == 0 {
        return 0;
    }
    let rest = &message[place / 8..];
    let bits = (place % 8) as u32;
    if let Some(&eight) = rest.first_chunk() {
        return u64::from_be_bytes(eight) << bits >> (64 - width);
    }
    // Near the message's end: the octets that hold the bits, at most five.
    let size = (bits + width).div_ceil(8);
    let octets = rest[..size as usize].iter();
    let window = octets.fold(0, |window, &octet| window << 8 | u64::from(octet));
    window >> (8 * size - bits - width) & ((1 << width) - 1)
}
