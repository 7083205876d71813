//! Widths by the rules of document 01. Retired ones hold their width: the
//! highest is taken over them and the live ones together. Edition one has none.

use crate::ast::{EnumBacking, PrimitiveType};
use crate::ir::{EnumDef, FlagsDef, TombstoneDef};

/// Bits of a declared enum.
pub fn enum_bits(en: &EnumDef) -> u64 {
    match en.backing {
        Some(EnumBacking::U8) => return 8,
        Some(EnumBacking::U16) => return 16,
        Some(EnumBacking::U32) => return 32,
        Some(EnumBacking::U64) => return 64,
        None => {}
    }
    let bits = u64::from(u32::BITS - highest_ordinal(en).leading_zeros());
    bits.max(if en.annotations.non_exhaustive { 8 } else { 1 })
}

/// Bytes of declared flags.
pub fn flags_bytes(flags: &FlagsDef) -> u64 {
    match highest_bit(flags) {
        ..8 => 1,
        8..16 => 2,
        16..32 => 4,
        32.. => 8,
    }
}

pub fn highest_ordinal(en: &EnumDef) -> u32 {
    let live = en.variants.iter().map(|variant| variant.ordinal);
    highest(live, &en.tombstones)
}

pub fn highest_bit(flags: &FlagsDef) -> u32 {
    highest(flags.bits.iter().map(|bit| bit.bit), &flags.tombstones)
}

/// Of live and retired ones; 0 where there are none.
fn highest(live: impl Iterator<Item = u32>, retired: &[TombstoneDef]) -> u32 {
    let retired = retired.iter().map(|one| one.ordinal);
    live.chain(retired).max().unwrap_or(0)
}

pub fn primitive_bits(primitive: PrimitiveType) -> u128 {
    use PrimitiveType::*;
    match primitive {
        Void => 0,
        Bool => 1,
        U8 | I8 => 8,
        U16 | I16 => 16,
        U32 | I32 | F32 | Fixed32 => 32,
        U64 | I64 | F64 | Fixed64 => 64,
    }
}
