//! A main loop with WAI, woken by a device line; and a wait that nothing ends.
//!
//! In each 32nd part of a run the device asks once. The program is woken, works for a quarter of the time that there is until the device
//! asks again, and waits.

use super::{plain, put, Image};
use cpu12::Record;

#[rustfmt::skip]
const MAIN: &[u8] = &[
    0xCF, 0x20, 0x00, // 4000 LDS   #$2000
    0x10, 0xEF,       //      ANDCC #$EF
    0xFD, 0x10, 0x02, // 4005 LDY   $1002
    0xCE, 0x11, 0x00, //      LDX   #$1100
    0xF6, 0x10, 0x04, //      LDAB  $1004
    0x72, 0x10, 0x06, //      INC   $1006
    0xA6, 0xE5,       // 4011 LDAA  B,X
    0xBB, 0x10, 0x00, //      ADDA  $1000
    0xA9, 0x01,       //      ADCA  1,X
    0x45,             //      ROLA
    0x6A, 0xE5,       //      STAA  B,X
    0x52,             //      INCB
    0x7B, 0x10, 0x04, //      STAB  $1004
    0x41,             //      COMA
    0x04, 0x36, 0xEE, //      DBNE  Y,$4011
    0x3E,             //      WAI
    0x20, 0xDF,       //      BRA   $4005
];

/// The word that holds how many turns of the inner loop the program works for.
const TURNS_AT: u16 = 0x1002;

/// The cycles of a turn.
const TURN: u32 = 20;

/// The cycles of all else from the end of a wait to the end of WAI: 6 for the end of the wait, 12 for the handler, 3 for BRA, 12 for
/// what stands before the inner loop, and 7 for WAI.
const AROUND: u32 = 40;

const HANDLER_AT: u16 = 0x4100;

#[rustfmt::skip]
const HANDLER: &[u8] = &[
    0x72, 0x10, 0x00, // 4100 INC   $1000
    0x0B,             //      RTI
];

/// The device's bit in a line byte, and its vector.
const DEVICE: u8 = 0x04;
const VECTOR: u16 = 0xFFF0;

/// How often the device asks: two records each, and a schedule has 64.
const REQUESTS: u32 = 32;

/// How long the device's line is up. It has to be entered before it falls, and to fall before the handler's RTI begins, 10 cycles after
/// it rose, which would take it again.
const UP: u32 = 8;

pub fn image(name: &'static str, budget: u32) -> Image {
    let apart = (budget / REQUESTS).max(2 * UP);
    let turns = (apart / 4).saturating_sub(AROUND) / TURN;
    let mut image = plain(name, budget, MAIN);
    put(&mut image.memory, HANDLER_AT, HANDLER);
    put(&mut image.memory, VECTOR, &HANDLER_AT.to_be_bytes());
    put(&mut image.memory, TURNS_AT, &(turns.max(1) as u16).to_be_bytes());
    let up_and_down = |cycle| [(cycle, DEVICE), (cycle + UP, 0)];
    let records = (0..REQUESTS).flat_map(|i| up_and_down(i * apart));
    image.schedule = records.map(|(cycle, line)| Record { cycle, line }).collect();
    image.idle = 0.75;
    image
}

/// WAI with both masks set, as a reset leaves them, under as many records as a schedule may have: each is met, and none ends the wait.
pub fn asleep(budget: u32) -> Image {
    let mut image = plain("asleep", budget, &[0x3E]); // WAI
    let apart = budget / (2 * REQUESTS);
    let record = |i: u32| Record { cycle: i * apart, line: if i % 2 == 0 { DEVICE } else { 0 } };
    image.schedule = (0..2 * REQUESTS).map(record).collect();
    image.idle = 1.0;
    image
}
