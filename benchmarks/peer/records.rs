//! The bytes of a log's three records.

pub(crate) const HEAD: [u8; 2] = *b"HC";
pub(crate) const ARC: [u8; 2] = *b"AR";
pub(crate) const END: [u8; 2] = *b"ED";

pub(crate) const HEAD_BYTES: usize = 6;
pub(crate) const ARC_BYTES: usize = 7;
pub(crate) const END_BYTES: usize = 6;

#[inline]
pub(crate) fn head(core: u8, cores: u8, cells: u16) -> [u8; HEAD_BYTES] {
    let [high, low] = cells.to_be_bytes();
    [HEAD[0], HEAD[1], core, cores, high, low]
}

#[inline]
pub(crate) fn arc(core: u8, count: u16, target: u16) -> [u8; ARC_BYTES] {
    let [a, b] = count.to_be_bytes();
    let [c, d] = target.to_be_bytes();
    [ARC[0], ARC[1], core, a, b, c, d]
}

#[inline]
pub(crate) fn end(instructions: u16, arcs: u16) -> [u8; END_BYTES] {
    let [a, b] = instructions.to_be_bytes();
    let [c, d] = arcs.to_be_bytes();
    [END[0], END[1], a, b, c, d]
}
