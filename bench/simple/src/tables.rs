//! The opcode map and the grid of costs, and what the postbytes say about length and cost.

/// The byte that opens page 2.
pub const PREBYTE: u8 = 0x18;

/// What no step of the machine passes: the cost of EMACS, in cycles.
pub const LONGEST: u32 = 13;

/// Cost of a short branch that is not taken.
pub const SHORT_UNTAKEN: u32 = 1;
/// Cost of a long branch that is not taken.
pub const LONG_UNTAKEN: u32 = 3;

/// A cell of the map. Its hexadecimal digits: one for the mode, two for the row of the grid,
/// one for the length in bytes and one for the cost in cycles. Length and cost are those of a
/// plain IDX postbyte where the cell has a postbyte, and of a branch that is taken. The cost
/// is 0 where the machine stops.
#[derive(Clone, Copy)]
pub struct Cell(u32);

impl Cell {
    #[inline(always)]
    pub fn page_1(opcode: u8) -> Cell {
        Cell(MAP[usize::from(opcode)])
    }

    #[inline(always)]
    pub fn page_2(opcode: u8) -> Cell {
        Cell(MAP[256 + usize::from(opcode)])
    }

    #[inline(always)]
    pub fn cost(self) -> u32 {
        self.0 & 0xF
    }

    #[inline(always)]
    pub fn length(self) -> u16 {
        (self.0 >> 4 & 0xF) as u16
    }

    /// The modes from 8 on have an indexed postbyte.
    #[inline(always)]
    pub fn is_indexed(self) -> bool {
        self.0 & 0x80000 != 0
    }

    /// Mode 8 has one and no other operand.
    #[inline(always)]
    pub fn is_plainly_indexed(self) -> bool {
        self.0 >> 16 == 0x8
    }

    /// Mode B has two.
    pub fn is_indexed_twice(self) -> bool {
        self.0 >> 16 == 0xB
    }

    #[inline(always)]
    fn row(self) -> usize {
        (self.0 >> 8 & 0xFF) as usize
    }

    /// The cost with a postbyte of this form; 0 where the cell has no such form.
    #[inline(always)]
    pub fn cost_in(self, form: Form) -> u32 {
        u32::from(GRID[self.row()][usize::from(form.column)])
    }
}

/// What a postbyte means for length and cost: a column of the grid, and how many bytes follow
/// the postbyte for its sake.
#[derive(Clone, Copy)]
pub struct Form {
    column: u8,
    pub extension: u16,
}

/// The least postbyte that may name another form than IDX.
pub const FIRST_LONG: u8 = 0xE0;

pub const IDX: Form = Form { column: 3, extension: 0 };
const IDX1: Form = Form { column: 4, extension: 1 };
const IDX2: Form = Form { column: 5, extension: 2 };
const D_INDIRECT: Form = Form { column: 6, extension: 0 };
const IDX2_INDIRECT: Form = Form { column: 7, extension: 2 };

/// By the low three bits of a postbyte from `FIRST_LONG` on.
static LONG_FORMS: [Form; 8] = [IDX1, IDX1, IDX2, IDX2_INDIRECT, IDX, IDX, IDX, D_INDIRECT];

impl Form {
    #[inline(always)]
    pub fn of_long(postbyte: u8) -> Form {
        LONG_FORMS[usize::from(postbyte & 7)]
    }

    pub fn of(postbyte: u8) -> Form {
        if postbyte < FIRST_LONG {
            IDX
        } else {
            Form::of_long(postbyte)
        }
    }
}

/// Codes 3 name registers that a program cannot reach. Bit 3 is ignored.
#[inline(always)]
pub fn transfer_is_reserved(postbyte: u8) -> bool {
    postbyte & 0x70 == 0x30 || postbyte & 7 == 3
}

/// Only kinds 0 to 5 exist, and codes 2 and 3 are no counters. Bit 3 is ignored.
#[inline(always)]
pub fn loop_is_reserved(postbyte: u8) -> bool {
    postbyte >= 0xC0 || postbyte & 6 == 2
}

/// A row for each family of instructions, a column for each address form:
/// IMM, DIR, EXT, IDX, IDX1, IDX2, [D,IDX], [IDX2]. 0 where there is none.
static GRID: [[u8; 8]; 18] = [
    [0, 0, 0, 0, 0, 0, 0, 0],
    [1, 3, 3, 3, 3, 4, 6, 6],
    [2, 3, 3, 3, 3, 4, 6, 6],
    [0, 2, 3, 2, 3, 3, 4, 4],
    [0, 0, 3, 2, 3, 3, 4, 4],
    [0, 0, 4, 3, 4, 5, 6, 6],
    [0, 0, 3, 3, 3, 4, 6, 6],
    [0, 0, 3, 3, 3, 4, 6, 6],
    [0, 4, 4, 4, 4, 5, 7, 7],
    [0, 0, 0, 2, 2, 2, 0, 0],
    [0, 4, 4, 4, 4, 6, 0, 0],
    [0, 4, 5, 4, 5, 6, 0, 0],
    [0, 0, 0, 4, 4, 5, 7, 7],
    [0, 0, 0, 4, 5, 6, 7, 7],
    [0, 0, 0, 6, 0, 0, 0, 0],
    [0, 0, 0, 10, 0, 0, 0, 0],
    [0, 0, 0, 4, 0, 0, 0, 0],
    [0, 0, 0, 5, 0, 0, 0, 0],
];

static MAP: [u32; 512] = map();

/// Page 1 and then page 2, whose cells from 40 on are all traps.
const fn map() -> [u32; 512] {
    let mut map = [TRAP; 512];
    let mut i = 0;
    while i < 256 {
        map[i] = PAGE_1[i];
        i += 1;
    }
    while i < 256 + PAGE_2.len() {
        map[i] = PAGE_2[i - 256];
        i += 1;
    }
    map
}

const TRAP: u32 = 0x3002A;

/// CALL stops before its postbyte is looked at, so 4A and 4B are written as inherent.
#[rustfmt::skip]
const PAGE_1: [u32; 256] = [
    0x30010, 0x30010, 0x30011, 0x30011, 0x40033, 0x80723, 0x20733, 0x40024, // 00 BGND
    0x30011, 0x30011, 0x30010, 0x30018, 0x80A34, 0x80A34, 0x80B44, 0x80B44, // 08 INX
    0x00021, 0x3001B, 0x30011, 0x30013, 0x00021, 0x80824, 0x20834, 0x10824, // 10 ANDCC
    0x30010, 0x80922, 0x80922, 0x80922, 0x20A44, 0x20A44, 0x20B55, 0x20B55, // 18 PAGE2
    0x40023, 0x40021, 0x40023, 0x40023, 0x40023, 0x40023, 0x40023, 0x40023, // 20 BRA
    0x40023, 0x40023, 0x40023, 0x40023, 0x40023, 0x40023, 0x40023, 0x40023, // 28 BVC
    0x30013, 0x30013, 0x30013, 0x30013, 0x30012, 0x30012, 0x30012, 0x30012, // 30 PULX
    0x30013, 0x30012, 0x30013, 0x30012, 0x50010, 0x30015, 0x30017, 0x30019, // 38 PULC
    0x30011, 0x30011, 0x30011, 0x30011, 0x30011, 0x30011, 0x30011, 0x30011, // 40 NEGA
    0x30011, 0x30011, 0x30040, 0x30030, 0x10A34, 0x10A34, 0x10B44, 0x10B44, // 48 ASLA
    0x30011, 0x30011, 0x30011, 0x30011, 0x30011, 0x30011, 0x30011, 0x30011, // 50 NEGB
    0x30011, 0x30011, 0x10322, 0x10322, 0x10322, 0x10322, 0x10322, 0x10322, // 58 ASLB
    0x80523, 0x80523, 0x80523, 0x80523, 0x80523, 0x80523, 0x80523, 0x80523, // 60 NEG
    0x80523, 0x80422, 0x80322, 0x80322, 0x80322, 0x80322, 0x80322, 0x80322, // 68 ASL
    0x20534, 0x20534, 0x20534, 0x20534, 0x20534, 0x20534, 0x20534, 0x20534, // 70 NEG
    0x20534, 0x20433, 0x20333, 0x20333, 0x20333, 0x20333, 0x20333, 0x20333, // 78 ASL
    0x00121, 0x00121, 0x00121, 0x00232, 0x00121, 0x00121, 0x00121, 0x30011, // 80 SUBA
    0x00121, 0x00121, 0x00121, 0x00121, 0x00232, 0x00232, 0x00232, 0x00232, // 88 EORA
    0x10123, 0x10123, 0x10123, 0x10223, 0x10123, 0x10123, 0x10123, 0x30011, // 90 SUBA
    0x10123, 0x10123, 0x10123, 0x10123, 0x10223, 0x10223, 0x10223, 0x10223, // 98 EORA
    0x80123, 0x80123, 0x80123, 0x80223, 0x80123, 0x80123, 0x80123, 0x30011, // A0 SUBA
    0x80123, 0x80123, 0x80123, 0x80123, 0x80223, 0x80223, 0x80223, 0x80223, // A8 EORA
    0x20133, 0x20133, 0x20133, 0x20233, 0x20133, 0x20133, 0x20133, 0x30021, // B0 SUBA
    0x20133, 0x20133, 0x20133, 0x20133, 0x20233, 0x20233, 0x20233, 0x20233, // B8 EORA
    0x00121, 0x00121, 0x00121, 0x00232, 0x00121, 0x00121, 0x00121, 0x30011, // C0 SUBB
    0x00121, 0x00121, 0x00121, 0x00121, 0x00232, 0x00232, 0x00232, 0x00232, // C8 EORB
    0x10123, 0x10123, 0x10123, 0x10223, 0x10123, 0x10123, 0x10123, 0x30011, // D0 SUBB
    0x10123, 0x10123, 0x10123, 0x10123, 0x10223, 0x10223, 0x10223, 0x10223, // D8 EORB
    0x80123, 0x80123, 0x80123, 0x80223, 0x80123, 0x80123, 0x80123, 0x80623, // E0 SUBB
    0x80123, 0x80123, 0x80123, 0x80123, 0x80223, 0x80223, 0x80223, 0x80223, // E8 EORB
    0x20133, 0x20133, 0x20133, 0x20233, 0x20133, 0x20133, 0x20133, 0x20633, // F0 SUBB
    0x20133, 0x20133, 0x20133, 0x20133, 0x20233, 0x20233, 0x20233, 0x20233, // F8 EORB
];

#[rustfmt::skip]
const PAGE_2: [u32; 64] = [
    0x91054, 0xA1155, 0xB1145, 0x61165, 0x71166, 0xC1155, 0x30022, 0x30023, // 00 MOVW
    0x91044, 0xA1155, 0xB1145, 0x61154, 0x71166, 0xC1155, 0x30022, 0x30022, // 08 MOVB
    0x3002C, 0x3002C, 0x5004D, 0x30023, 0x3002C, 0x3002C, 0x30022, 0x30022, // 10 IDIV
    0x80C34, 0x80C34, 0x80C34, 0x80C34, 0x80D34, 0x80D34, 0x80D34, 0x80D34, // 18 MAXA
    0x40044, 0x40043, 0x40044, 0x40044, 0x40044, 0x40044, 0x40044, 0x40044, // 20 LBRA
    0x40044, 0x40044, 0x40044, 0x40044, 0x40044, 0x40044, 0x40044, 0x40044, // 28 LBVC
    0x3002A, 0x3002A, 0x3002A, 0x3002A, 0x3002A, 0x3002A, 0x3002A, 0x3002A, // 30 TRAP
    0x3002A, 0x3002A, 0x50020, 0x50020, 0x50020, 0x80E36, 0x30020, 0x80F3A, // 38 TRAP
];
