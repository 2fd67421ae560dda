//! What the plain machines of the benches share of RV32IM: the fields of a word, arithmetic, and the memory map.

pub const RAM_BYTES: usize = 262_144;
const DEVICES: [std::ops::Range<u32>; 2] = [0x1001_2000..0x1001_3000, 0x1002_4000..0x1002_5000];

#[inline]
pub fn bits(word: u32, high: u32, low: u32) -> u32 {
    word << (31 - high) >> (31 - high + low)
}

#[inline]
pub fn signed_bits(word: u32, high: u32, low: u32) -> u32 {
    ((word << (31 - high)) as i32 >> (31 - high + low)) as u32
}

#[inline]
pub fn immediate_i(word: u32) -> u32 {
    signed_bits(word, 31, 20)
}

#[inline]
pub fn immediate_s(word: u32) -> u32 {
    signed_bits(word, 31, 25) << 5 | bits(word, 11, 7)
}

#[inline]
pub fn immediate_b(word: u32) -> u32 {
    signed_bits(word, 31, 31) << 12 | bits(word, 7, 7) << 11 | bits(word, 30, 25) << 5 | bits(word, 11, 8) << 1
}

#[inline]
pub fn immediate_j(word: u32) -> u32 {
    signed_bits(word, 31, 31) << 20 | bits(word, 19, 12) << 12 | bits(word, 20, 20) << 11 | bits(word, 30, 21) << 1
}

#[inline]
pub fn is_device_word(address: u32, width: u32) -> bool {
    width == 4 && address % 4 == 0 && DEVICES.iter().any(|range| range.contains(&address))
}

#[inline]
pub fn is_in_ram(address: u32, width: u32) -> bool {
    address as usize + width as usize <= RAM_BYTES
}

/// RAM at boot: the code from address 0 on, and zeros.
pub fn ram_of(code: &[u32]) -> Vec<u8> {
    let mut ram = vec![0; RAM_BYTES];
    for (place, word) in ram.chunks_exact_mut(4).zip(code) {
        place.copy_from_slice(&word.to_le_bytes());
    }
    ram
}

/// What a load reads that lies in RAM.
#[inline]
pub fn load(ram: &[u8], address: u32, funct3: u32) -> u32 {
    let width = 1 << (funct3 & 3);
    let place = address as usize;
    let bytes = &ram[place..place + width as usize];
    let value = bytes.iter().rev().fold(0, |value, byte| value << 8 | *byte as u32);
    if funct3 < 4 { signed_bits(value, 8 * width - 1, 0) } else { value }
}

/// Does a store that lies in RAM.
#[inline]
pub fn store(ram: &mut [u8], address: u32, value: u32, funct3: u32) {
    let width = 1 << funct3;
    let place = address as usize;
    ram[place..place + width].copy_from_slice(&value.to_le_bytes()[..width]);
}

#[inline]
pub fn branches(funct3: u32, a: u32, b: u32) -> bool {
    let holds = match funct3 >> 1 {
        0 => a == b,
        2 => (a as i32) < b as i32,
        _ => a < b,
    };
    holds == (funct3 & 1 == 0)
}

#[inline]
pub fn multiply_or_divide(funct3: u32, a: u32, b: u32) -> u32 {
    let (signed_a, signed_b) = (a as i32, b as i32);
    match funct3 {
        0 => a.wrapping_mul(b),
        1 => ((signed_a as i64 * signed_b as i64) >> 32) as u32,
        2 => ((signed_a as i64 * b as i64) >> 32) as u32,
        3 => ((a as u64 * b as u64) >> 32) as u32,
        4 if b == 0 => u32::MAX,
        4 => signed_a.wrapping_div(signed_b) as u32,
        5 => a.checked_div(b).unwrap_or(u32::MAX),
        6 if b == 0 => a,
        6 => signed_a.wrapping_rem(signed_b) as u32,
        _ => a.checked_rem(b).unwrap_or(a),
    }
}

/// An operation of the base set; the other of its funct3 is SUB or SRA.
#[inline]
pub fn calculate(funct3: u32, is_other: bool, a: u32, b: u32) -> u32 {
    match funct3 {
        0 if is_other => a.wrapping_sub(b),
        0 => a.wrapping_add(b),
        1 => a << (b & 31),
        2 => ((a as i32) < b as i32) as u32,
        3 => (a < b) as u32,
        4 => a ^ b,
        5 if is_other => (a as i32 >> (b & 31)) as u32,
        5 => a >> (b & 31),
        6 => a | b,
        _ => a & b,
    }
}
