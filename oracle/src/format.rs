//! The numbers of a schema image, their limits, the editions and the layouts.

/// How an image is written. Nothing in its bytes tells: whoever reads or
/// writes one is told.
#[derive(Debug, Clone, Copy, PartialEq, Eq)]
pub enum Edition {
    One,
    /// Fields of messages and variants have limits; enums and flags have
    /// retired ordinals and bits.
    Two,
}

impl Edition {
    pub const ALL: [Edition; 2] = [Edition::One, Edition::Two];
}

/// Where the fields of messages and variants begin in a value.
#[derive(Debug, Clone, Copy, PartialEq, Eq)]
pub enum Layout {
    /// Each at the bit after the one before it.
    Packed,
    /// Each on a whole byte, as the head board has it.
    Aligned,
}

impl Layout {
    pub const ALL: [Layout; 2] = [Layout::Packed, Layout::Aligned];
}

/// Which check is meant: of images of an edition, for a layout.
#[derive(Debug, Clone, Copy, PartialEq, Eq)]
pub struct Entry {
    pub edition: Edition,
    pub layout: Layout,
}

impl Entry {
    pub const ONE: Entry = entry(Edition::One, Layout::Packed);
    pub const TWO: Entry = entry(Edition::Two, Layout::Packed);
    pub const ALIGNED: Entry = entry(Edition::One, Layout::Aligned);
    pub const ALIGNED_TWO: Entry = entry(Edition::Two, Layout::Aligned);

    pub const ALL: [Entry; 4] = [Entry::ONE, Entry::TWO, Entry::ALIGNED, Entry::ALIGNED_TWO];
}

const fn entry(edition: Edition, layout: Layout) -> Entry {
    Entry { edition, layout }
}

/// The ordinary check, which packs.
impl From<Edition> for Entry {
    fn from(edition: Edition) -> Self {
        entry(edition, Layout::Packed)
    }
}

/// Most bytes of an image.
pub const IMAGE_LIMIT: usize = 65_536;
/// Most names, slots and declarations.
pub const NAME_LIMIT: u64 = 4_096;
pub const SLOT_LIMIT: u64 = 512;
pub const DECLARATION_LIMIT: u64 = 1_024;
/// Greatest of every count without a limit of its own.
pub const COUNT_LIMIT: u64 = 65_536;
/// Most levels of a type, expression or encoding.
pub const LEVEL_LIMIT: u32 = 32;
/// Greatest smallest or largest size, in bits.
pub const SIZE_LIMIT: u64 = (1 << 63) - 1;
pub const U32_LIMIT: u64 = u32::MAX as u64;
pub const BYTE_LIMIT: u64 = 255;
/// Greatest kind of a slot, a type and an expression.
pub const SLOT_KIND_LIMIT: u64 = 9;
pub const TYPE_KIND_LIMIT: u64 = 16;
pub const EXPRESSION_KIND_LIMIT: u64 = 18;
/// Greatest primitive, semantic type, encoding, stored-size kind and backing.
pub const PRIMITIVE_LIMIT: u64 = 13;
pub const SEMANTIC_LIMIT: u64 = 5;
pub const ENCODING_LIMIT: u64 = 3;
pub const STORED_LIMIT: u64 = 3;
pub const BACKING_LIMIT: u64 = 4;

/// Why no number could be read.
#[derive(Debug, Clone, Copy, PartialEq, Eq)]
pub enum Fault {
    /// The bytes end where one is due.
    Missing,
    /// Not the shortest form, or beyond 64 bits.
    Malformed,
}

/// Appends a number: groups of seven bits, lowest first, shortest form.
pub fn write_number(mut value: u64, out: &mut Vec<u8>) {
    while value >= 0x80 {
        out.push(value as u8 | 0x80);
        value >>= 7;
    }
    out.push(value as u8);
}

/// Reads the number that begins at `at`; answers it and the offset after it.
pub fn read_number(image: &[u8], at: usize) -> Result<(u64, usize), Fault> {
    let mut value = 0;
    for group in 0..10 {
        let Some(&byte) = image.get(at + group) else {
            return Err(Fault::Missing);
        };
        // The tenth byte holds bit 63 alone, so no byte is due after it.
        if group == 9 && byte > 1 {
            return Err(Fault::Malformed);
        }
        value |= u64::from(byte & 0x7f) << (7 * group);
        if byte < 0x80 {
            let shortest = group == 0 || byte != 0;
            return if shortest {
                Ok((value, at + group + 1))
            } else {
                Err(Fault::Malformed)
            };
        }
    }
    unreachable!("the tenth byte has no high bit")
}
