//! Orders and their eight bytes.

/// Bytes of an order.
pub const SIZE: usize = 8;

#[derive(Clone, Copy, PartialEq, Eq, Debug)]
pub struct Order {
    pub kind: u8,
    pub line: u8,
    pub target: u8,
    pub value: i32,
}

impl Order {
    pub fn bytes(self) -> [u8; SIZE] {
        let mut bytes = [self.kind, self.line, self.target, 0, 0, 0, 0, 0];
        bytes[4..].copy_from_slice(&self.value.to_le_bytes());
        bytes
    }

    /// The first `count` orders in the buffer.
    pub fn read(buffer: &[u8], count: usize) -> impl Iterator<Item = Order> + '_ {
        buffer.chunks_exact(SIZE).take(count).map(|bytes| Order {
            kind: bytes[0],
            line: bytes[1],
            target: bytes[2],
            value: i32::from_le_bytes([bytes[4], bytes[5], bytes[6], bytes[7]]),
        })
    }
}
