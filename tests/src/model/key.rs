//! Keys (document 01: tray numbers). They have 64 bits; a word has 32, so tables and states hold them in two halves.
//! Only what writes a key to words or reads it from them knows of halves.

/// The least key and the greatest: those around them are refused 6.
pub const FIRST_KEY: u64 = 1;
pub const LAST_KEY: u64 = u64::MAX - 1;

pub fn lawful_key(key: u64) -> bool {
    (FIRST_KEY..=LAST_KEY).contains(&key)
}

pub fn low_half(key: u64) -> u32 {
    key as u32
}

pub fn high_half(key: u64) -> u32 {
    (key >> 32) as u32
}

/// The key that has these halves.
pub fn key_of_halves(low: u32, high: u32) -> u64 {
    u64::from(high) << 32 | u64::from(low)
}
