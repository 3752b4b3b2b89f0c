//! The images. Each begins at $4000; $0000 to $1FFF are its data and its stack.

mod blocks;
mod waiting;

pub use waiting::asleep;

use crate::program;
use cpu12::doors::MEMORY;
use cpu12::Record;

/// A memory to be run from reset, with what else its run is given.
pub struct Image {
    pub name: &'static str,
    /// The cycles of the run. The schedule and the amounts of work are made for them, so that a short run has the shape of a long one.
    pub budget: u32,
    pub memory: Vec<u8>,
    pub schedule: Vec<Record>,
    /// The part of the cycles that is idle.
    pub idle: f64,
}

/// Makes an image of its name and its budget.
type Maker = fn(&'static str, u32) -> Image;

const MAKERS: [(&str, Maker); 7] = [
    ("load, store, ALU", |name, budget| plain(name, budget, LOAD_STORE)),
    ("branches", |name, budget| plain(name, budget, BRANCHES)),
    ("multiply, divide", |name, budget| plain(name, budget, MULTIPLY)),
    ("interrupts", interrupts),
    ("random program", |name, budget| plain(name, budget, &program::random(1))),
    ("waiting", waiting::image),
    ("CRC, block copy", blocks::image),
];

pub fn names() -> impl Iterator<Item = &'static str> {
    MAKERS.iter().map(|(name, _)| *name)
}

/// Makes this image and no other: what it takes to make one is counted with its run.
pub fn named(name: &str, budget: u32) -> Option<Image> {
    MAKERS.iter().find(|(of, _)| *of == name).map(|(of, make)| make(of, budget))
}

pub fn all(budget: u32) -> Vec<Image> {
    MAKERS.iter().map(|(name, make)| make(name, budget)).collect()
}

/// Where every image begins.
pub const START: u16 = 0x4000;

const RESET_VECTOR: u16 = 0xFFFE;

fn put(memory: &mut [u8], at: u16, bytes: &[u8]) {
    let at = usize::from(at);
    memory[at..at + bytes.len()].copy_from_slice(bytes);
}

/// Code at $4000, with the reset vector that leads there and no requests.
fn plain(name: &'static str, budget: u32, code: &[u8]) -> Image {
    let mut memory = vec![0; MEMORY];
    put(&mut memory, START, code);
    put(&mut memory, RESET_VECTOR, &START.to_be_bytes());
    Image { name, budget, memory, schedule: Vec::new(), idle: 0.0 }
}

/// A pass over 2,048 bytes, again and again.
#[rustfmt::skip]
const LOAD_STORE: &[u8] = &[
    0xCE, 0x10, 0x00, // 4000 LDX  #$1000
    0xCD, 0x18, 0x00, // 4003 LDY  #$1800
    0xA6, 0x30,       // 4006 LDAA 1,X+
    0xAB, 0x00,       //      ADDA 0,X
    0x88, 0x5A,       //      EORA #$5A
    0x6A, 0x70,       //      STAA 1,Y+
    0xF6, 0x20, 0x00, //      LDAB $2000
    0xC9, 0x03,       //      ADCB #3
    0x7B, 0x20, 0x00, //      STAB $2000
    0xEC, 0x00,       //      LDD  0,X
    0xE3, 0xE8, 0x10, //      ADDD 16,Y
    0x7C, 0x20, 0x02, //      STD  $2002
    0x96, 0x10,       //      LDAA $10
    0x44,             //      LSRA
    0x5A, 0x11,       //      STAA $11
    0x72, 0x20, 0x10, //      INC  $2010
    0x62, 0x05,       //      INC  5,X
    0x8E, 0x18, 0x00, //      CPX  #$1800
    0x26, 0xD9,       //      BNE  $4006
    0x20, 0xD1,       //      BRA  $4000
];

/// Short, long, bit and loop branches, some taken and some not, and a subroutine.
#[rustfmt::skip]
const BRANCHES: &[u8] = &[
    0xCF, 0x20, 0x00,       // 4000 LDS   #$2000
    0xCE, 0x00, 0x00,       // 4003 LDX   #0
    0x08,                   // 4006 INX
    0x72, 0x00, 0x20,       //      INC   $0020
    0xB7, 0x54,             //      TFR   X,D
    0xC1, 0x40,             //      CMPB  #$40
    0x25, 0x02,             //      BCS   *+4
    0x42,                   //      INCA
    0x42,                   //      INCA
    0xC5, 0x01,             //      BITB  #$01
    0x27, 0x03,             //      BEQ   *+5
    0x7A, 0x10, 0x00,       //      STAA  $1000
    0x81, 0x08,             //      CMPA  #8
    0x2D, 0x02,             //      BLT   *+4
    0x20, 0x01,             //      BRA   *+3
    0x50,                   //      NEGB
    0x22, 0x01,             //      BHI   *+3
    0xA7,                   //      NOP
    0x4F, 0x20, 0x01, 0x01, //      BRCLR $20,#$01,*+5
    0xA7,                   //      NOP
    0x07, 0x0B,             //      BSR   $4035
    0x18, 0x26, 0x00, 0x01, //      LBNE  *+5
    0xA7,                   //      NOP
    0x04, 0x61, 0x01,       //      TBNE  B,*+4
    0xA7,                   //      NOP
    0x20, 0xD1,             //      BRA   $4006
    0x97,                   // 4035 TSTA
    0x2B, 0x01,             //      BMI   *+3
    0xA7,                   //      NOP
    0x3D,                   //      RTS
];

/// Every multiplication and division; $1000 holds a number that changes each time.
#[rustfmt::skip]
const MULTIPLY: &[u8] = &[
    0xFC, 0x10, 0x00,       // 4000 LDD   $1000
    0xC3, 0x12, 0x35,       //      ADDD  #$1235
    0x7C, 0x10, 0x00,       //      STD   $1000
    0x12,                   //      MUL
    0xFD, 0x10, 0x00,       //      LDY   $1000
    0x13,                   //      EMUL
    0xCE, 0xA1, 0x37,       //      LDX   #$A137
    0x11,                   //      EDIV
    0x7D, 0x10, 0x02,       //      STY   $1002
    0x7C, 0x10, 0x04,       //      STD   $1004
    0xFC, 0x10, 0x00,       //      LDD   $1000
    0x18, 0x13,             //      EMULS
    0x18, 0x14,             //      EDIVS
    0xFC, 0x10, 0x00,       //      LDD   $1000
    0xCE, 0x00, 0x1D,       //      LDX   #29
    0x18, 0x10,             //      IDIV
    0xFC, 0x10, 0x02,       //      LDD   $1002
    0xCE, 0xFF, 0xF3,       //      LDX   #-13
    0x18, 0x15,             //      IDIVS
    0xFC, 0x10, 0x04,       //      LDD   $1004
    0xCE, 0xF0, 0x01,       //      LDX   #$F001
    0x18, 0x11,             //      FDIV
    0xCE, 0x10, 0x00,       //      LDX   #$1000
    0xCD, 0x10, 0x02,       //      LDY   #$1002
    0x18, 0x12, 0x10, 0x08, //      EMACS $1008
    0x20, 0xBD,             //      BRA   $4000
];

/// Opens both masks, and calls the software interrupt and a trap.
#[rustfmt::skip]
const REQUESTED: &[u8] = &[
    0xCF, 0x20, 0x00, // 4000 LDS   #$2000
    0x10, 0xAF,       // 4003 ANDCC #$AF
    0x08,             //      INX
    0x3F,             //      SWI
    0x18, 0x30,       //      TRAP  $30
    0x20, 0xF8,       //      BRA   $4003
];

/// A handler sets its mask in the frame, so that the program goes on before the next request is entered.
#[rustfmt::skip]
const HANDLERS: [(u16, [u8; 7]); 3] = [
    (0x4100, [
        0x72, 0x10, 0x00, // 4100 INC  $1000
        0x0C, 0x80, 0x10, //      BSET 0,SP,#$10
        0x0B,             //      RTI
    ]),
    (0x4200, [
        0x72, 0x10, 0x01, // 4200 INC  $1001
        0x0C, 0x80, 0x50, //      BSET 0,SP,#$50
        0x0B,             //      RTI
    ]),
    (0x4300, [
        0x72, 0x10, 0x02, // 4300 INC  $1002
        0xA7,             //      NOP
        0xA7,             //      NOP
        0xA7,             //      NOP
        0x0B,             //      RTI
    ]),
];

/// The trap, SWI, XIRQ, IRQ and the four devices, from $FFF8 downward.
const HANDLER_OF: [u16; 8] = [0x4300, 0x4300, 0x4200, 0x4100, 0x4100, 0x4100, 0x4100, 0x4100];

/// The line bytes, each in force for a 64th of the run.
const LINES: [u8; 8] = [0x02, 0x01, 0x24, 0x03, 0x20, 0x00, 0x10, 0x05];

fn interrupts(name: &'static str, budget: u32) -> Image {
    let mut image = plain(name, budget, REQUESTED);
    for (at, handler) in &HANDLERS {
        put(&mut image.memory, *at, handler);
    }
    for (vector, handler) in (0..).map(|i| 0xFFF8 - 2 * i).zip(&HANDLER_OF) {
        put(&mut image.memory, vector, &handler.to_be_bytes());
    }
    // The records rise even in a run of fewer cycles than records.
    let apart = (budget / 64).max(1);
    let record = |i: u32| Record { cycle: i * apart, line: LINES[i as usize % LINES.len()] };
    image.schedule = (0..64).map(record).collect();
    image
}
