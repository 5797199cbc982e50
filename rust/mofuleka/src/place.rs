//! Where each field of a record starts, in bytes; `docs/INTERFACE.md` lays the record out. Its length is
//! [`RECORD_BYTES`](crate::lent::RECORD_BYTES).

/// Signed 16 bits.
pub const K_V_DD: usize = 0;
/// Signed 16 bits.
pub const V_DD_25: usize = 2;
/// 8 bits.
pub const RESOLUTION: usize = 4;
/// A float.
pub const K_V_PTAT: usize = 5;
/// A float.
pub const K_T_PTAT: usize = 9;
/// A float.
pub const V_PTAT_25: usize = 13;
/// A float.
pub const ALPHA_PTAT: usize = 17;
/// A float.
pub const GAIN: usize = 21;
/// A float.
pub const K_S_TA: usize = 25;
/// Four of signed 16 bits.
pub const CORNER_TEMPERATURES: usize = 29;
/// Four floats.
pub const K_S_TO: usize = 37;
/// Two floats: subpage Zero, subpage One.
pub const ALPHA_CP: usize = 53;
/// Two of signed 16 bits: subpage Zero, subpage One.
pub const OFFSET_REFERENCE_CP: usize = 61;
/// Four floats: even row and even column, odd row and even column, even row and odd column, odd row and odd column.
pub const K_V_PATTERN: usize = 65;
/// A float.
pub const K_V_CP: usize = 81;
/// A float.
pub const K_TA_CP: usize = 85;
/// 8 bits: 0 where the camera has no temperature gradient coefficient.
pub const TEMPERATURE_GRADIENT_PRESENT: usize = 89;
/// A float, +0 where it is absent.
pub const TEMPERATURE_GRADIENT_COEFFICIENT: usize = 90;
/// Six floats: columns 0 and 2, 1, and 3 of every four, in even rows and then in odd ones.
pub const INTERLEAVE_CORRECTION_PIXELS: usize = 94;
/// A float.
pub const INTERLEAVE_CORRECTION_CP: usize = 118;
