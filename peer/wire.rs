//! Numbers on the wire: rounding, floats, and the order setting (docs/RULES.md, sections 2 to 4).

/// An image or a block: four words.
pub type Image = [u8; 8];

/// The largest number that a received float may have and still be whole.
const WHOLE_LIMIT: u64 = 16_777_215;

/// Rounds to the nearest multiple of `d`; of two as near, to the one farther from zero.
pub fn round(n: i64, d: i64) -> i64 {
    let q = (2 * n.abs() + d) / (2 * d);
    n.signum() * d * q
}

/// The float of a whole number. Integer 0 has no sign, so minus zero cannot come out of here.
pub fn float_of(n: i64) -> u32 {
    (n as f32).to_bits()
}

/// The whole number that a received float stands for, worked out from its bits alone.
pub fn whole(bits: u32) -> Option<i64> {
    let exponent = ((bits >> 23) & 255) as i32;
    let fraction = (bits & 0x007f_ffff) as u64;
    if exponent == 0 {
        // Zero of either sign is 0; what is left here is smaller than 1.
        return if fraction == 0 { Some(0) } else { None };
    }
    let significand = fraction | 0x0080_0000;
    let shift = exponent - 150;
    // A shift to the left makes at least 16,777,216; exponent 255 (NaN, infinity) lands here too.
    if shift > 0 || shift < -23 {
        return None;
    }
    let down = (-shift) as u32;
    let size = significand >> down;
    if size << down != significand || size > WHOLE_LIMIT {
        return None;
    }
    let size = size as i64;
    Some(if bits >> 31 == 1 { -size } else { size })
}

/// A measuring block apart from its order.
#[derive(Clone, Copy, Debug, PartialEq)]
pub struct Block {
    pub value: u32,
    pub word2: u16,
    pub word3: u16,
}

/// The order setting.
#[derive(Clone, Copy, Debug)]
pub struct Order {
    low_byte_first: bool,
    low_half_first: bool,
}

impl Order {
    pub fn from_setting(setting: u8) -> Option<Order> {
        if setting > 3 {
            return None;
        }
        Some(Order { low_byte_first: setting & 1 != 0, low_half_first: setting & 2 != 0 })
    }

    fn word_to_bytes(self, word: u16) -> [u8; 2] {
        if self.low_byte_first { word.to_le_bytes() } else { word.to_be_bytes() }
    }

    fn word_from_bytes(self, bytes: [u8; 2]) -> u16 {
        if self.low_byte_first { u16::from_le_bytes(bytes) } else { u16::from_be_bytes(bytes) }
    }

    /// The strip of a float alone.
    pub fn float_to_bytes(self, bits: u32) -> [u8; 4] {
        let high = self.word_to_bytes((bits >> 16) as u16);
        let low = self.word_to_bytes(bits as u16);
        let (first, second) = if self.low_half_first { (low, high) } else { (high, low) };
        [first[0], first[1], second[0], second[1]]
    }

    pub fn block_to_image(self, block: Block) -> Image {
        let f = self.float_to_bytes(block.value);
        let a = self.word_to_bytes(block.word2);
        let b = self.word_to_bytes(block.word3);
        [f[0], f[1], f[2], f[3], a[0], a[1], b[0], b[1]]
    }

    pub fn image_to_block(self, image: Image) -> Block {
        let word = |i: usize| self.word_from_bytes([image[2 * i], image[2 * i + 1]]);
        let (first, second) = (word(0) as u32, word(1) as u32);
        let (high, low) = if self.low_half_first { (second, first) } else { (first, second) };
        Block { value: high << 16 | low, word2: word(2), word3: word(3) }
    }
}

/// The increments that a setting may have.
pub const INCREMENTS: [u16; 10] = [1, 2, 5, 10, 20, 50, 100, 200, 500, 1000];

/// The order setting and the increment, once both are accepted.
#[derive(Clone, Copy, Debug)]
pub struct Settings {
    pub order: Order,
    pub increment: i64,
}

impl Settings {
    /// The order is looked at first, so a file with both wrong is refused with 41.
    pub fn new(order: u8, increment: u16) -> Result<Settings, u8> {
        let order = Order::from_setting(order).ok_or(41u8)?;
        if !INCREMENTS.contains(&increment) {
            return Err(42);
        }
        Ok(Settings { order, increment: increment as i64 })
    }
}
