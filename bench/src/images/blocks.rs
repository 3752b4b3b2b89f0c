//! A CRC over a block of bytes, a block copy, and a pass over what was copied.

use super::{plain, put, Image};

/// $1000 holds a number that changes each time, the CRC over it and what follows is put behind, all of that is copied, and words and
/// bytes of the copy are added up and looked up.
#[rustfmt::skip]
const CODE: &[u8] = &[
    0xCF, 0x20, 0x00,       // 4000 LDS  #$2000
    0xFC, 0x10, 0x00,       // 4003 LDD  $1000
    0xC3, 0x00, 0x01,       //      ADDD #1
    0x7C, 0x10, 0x00,       //      STD  $1000
    0xCE, 0x41, 0x00,       //      LDX  #$4100
    0xCD, 0x10, 0x00,       //      LDY  #$1000
    0xCC, 0xFF, 0xFF,       //      LDD  #$FFFF
    0xA8, 0x70,             // 4015 EORA 1,Y+
    0x5B, 0x20,             //      STAB $20
    0x18, 0x0E,             //      TAB
    0x87,                   //      CLRA
    0x59,                   //      ASLD
    0xEC, 0xE6,             //      LDD  D,X
    0x98, 0x20,             //      EORA $20
    0x8D, 0x10, 0x40,       //      CPY  #$1040
    0x26, 0xEF,             //      BNE  $4015
    0x6C, 0x40,             //      STD  0,Y
    0xCE, 0x10, 0x00,       //      LDX  #$1000
    0xCD, 0x11, 0x00,       //      LDY  #$1100
    0xC6, 0x80,             //      LDAB #128
    0x18, 0x02, 0x31, 0x71, // 4030 MOVW 2,X+,2,Y+
    0x04, 0x31, 0xF9,       //      DBNE B,$4030
    0xCE, 0x11, 0x00,       //      LDX  #$1100
    0xCD, 0x00, 0x20,       //      LDY  #32
    0xEC, 0x00,             // 403D LDD  0,X
    0xE3, 0x06,             //      ADDD 6,X
    0xE3, 0xE1, 0x00,       //      ADDD -256,X
    0x6C, 0xE2, 0x02, 0x00, //      STD  $200,X
    0xA6, 0x03,             //      LDAA 3,X
    0xE6, 0xE5,             //      LDAB B,X
    0x6C, 0xE2, 0x03, 0x00, //      STD  $300,X
    0x1A, 0x08,             //      LEAX 8,X
    0x04, 0x36, 0xE8,       //      DBNE Y,$403D
    0x20, 0xAC,             //      BRA  $4003
];

const TABLE_AT: u16 = 0x4100;

/// The generator of the CRC, x^16 + x^12 + x^5 + 1 without its highest term.
const GENERATOR: u16 = 0x1021;

/// The CRC of one byte.
fn remainder(byte: u8) -> u16 {
    let shifted = |crc: u16| crc << 1 ^ if crc & 0x8000 == 0 { 0 } else { GENERATOR };
    (0..8).fold(u16::from(byte) << 8, |crc, _| shifted(crc))
}

pub fn image(name: &'static str, budget: u32) -> Image {
    let mut image = plain(name, budget, CODE);
    let table: Vec<u8> = (0..=0xFF).flat_map(|byte| remainder(byte).to_be_bytes()).collect();
    put(&mut image.memory, TABLE_AT, &table);
    image
}
