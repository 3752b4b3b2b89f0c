//! The two pages of the opcode map and what each cell costs.
//!
//! Cells and lengths are read from the maps of 003 (table A-2, sheets 1 and 2) and of
//! 002 (table A-2, p. ). Costs are the letters of the HCS12 column of 003;
//! where that column is at fault, its map and the sister instructions decide.

use crate::glossary::Operation::{self, *};
use crate::memory::read8;
use crate::postbyte::IndexForm;

/// How the bytes after the opcode are laid out.
#[derive(Clone, Copy, Debug, PartialEq, Eq)]
pub enum Form {
    Inherent,
    Immediate8,
    Immediate16,
    Direct,
    Extended,
    Indexed,
    Relative8,
    Relative16,
    Loop,
    Transfer,
    DirectMask,
    ExtendedMask,
    IndexedMask,
    DirectMaskRelative,
    ExtendedMaskRelative,
    IndexedMaskRelative,
    MoveImmediate8Extended,
    MoveImmediate8Indexed,
    MoveImmediate16Extended,
    MoveImmediate16Indexed,
    MoveExtendedExtended,
    MoveExtendedIndexed,
    MoveIndexedExtended,
    MoveIndexedIndexed,
    ExtendedPage,
    IndexedPage,
    Prebyte,
}

impl Form {
    /// Bytes after the opcode, extension bytes of an indexed postbyte not counted.
    pub fn operand_bytes(self) -> u16 {
        match self {
            Form::Inherent | Form::Prebyte => 0,
            Form::Immediate8 | Form::Direct | Form::Indexed => 1,
            Form::Relative8 | Form::Transfer => 1,
            Form::Immediate16 | Form::Extended | Form::Relative16 | Form::Loop => 2,
            Form::DirectMask | Form::IndexedMask | Form::IndexedPage => 2,
            Form::MoveImmediate8Indexed | Form::MoveIndexedIndexed => 2,
            Form::ExtendedMask | Form::DirectMaskRelative | Form::IndexedMaskRelative => 3,
            Form::MoveImmediate8Extended | Form::MoveImmediate16Indexed => 3,
            Form::MoveExtendedIndexed | Form::MoveIndexedExtended => 3,
            Form::ExtendedPage => 3,
            Form::ExtendedMaskRelative => 4,
            Form::MoveImmediate16Extended | Form::MoveExtendedExtended => 4,
        }
    }

    /// How many indexed postbytes stand right after the opcode.
    pub fn indexed_postbytes(self) -> u16 {
        match self {
            Form::Indexed | Form::IndexedMask | Form::IndexedMaskRelative => 1,
            Form::MoveImmediate8Indexed | Form::MoveImmediate16Indexed => 1,
            Form::MoveExtendedIndexed | Form::MoveIndexedExtended => 1,
            Form::IndexedPage => 1,
            Form::MoveIndexedIndexed => 2,
            _ => 0,
        }
    }
}

/// A row of the cost grid: instructions whose costs are the same in every form.
#[derive(Clone, Copy, Debug, PartialEq, Eq)]
pub enum Family {
    /// Loads, arithmetic, logic and comparisons of a byte.
    Byte,
    /// The same of a word.
    Word,
    /// TST.
    Test,
    /// STAA, STAB, STD, STS, STX, STY.
    Store,
    /// CLR.
    Clear,
    /// NEG, COM, INC, DEC, LSR, ROL, ROR, ASR, ASL.
    Modify,
    /// LEAS, LEAX, LEAY.
    Effective,
    Jump,
    Subroutine,
    /// BSET, BCLR.
    BitChange,
    /// BRSET, BRCLR: the same whether taken or not.
    BitBranch,
    /// MAXA, MINA, EMAXD, EMIND.
    LimitRegister,
    /// MAXM, MINM, EMAXM, EMINM.
    LimitMemory,
    /// TBL.
    Table8,
    /// ETBL.
    Table16,
    /// Moves of immediate data to an indexed place.
    MoveImmediate,
    /// The other moves with an indexed place.
    Move,
}

/// The columns of the grid.
pub const IMM: usize = 0;
pub const DIR: usize = 1;
pub const EXT: usize = 2;
pub const IDX: usize = 3;
pub const IDX1: usize = 4;
pub const IDX2: usize = 5;
pub const D_IDX: usize = 6;
pub const INDIRECT_IDX2: usize = 7;

/// Cost by family and address form; 0 where the family lacks the form.
pub const GRID: [[u8; 8]; 17] = [
    // IMM DIR EXT IDX IDX1 IDX2 [D,IDX] [IDX2]
    [1, 3, 3, 3, 3, 4, 6, 6], // Byte:   P rPf rPO rPf rPO frPP fIfrPf fIPrPf
    [2, 3, 3, 3, 3, 4, 6, 6], // Word:   PO RPf RPO RPf RPO fRPP fIfRPf fIPRPf
    [0, 0, 3, 3, 3, 4, 6, 6], // Test:   rPO rPf rPO frPP fIfrPf fIPrPf
    [0, 2, 3, 2, 3, 3, 4, 4], // Store:  Pw PwO Pw PwO PwP PIfw PIPw
    [0, 0, 3, 2, 3, 3, 4, 4], // Clear:  PwO Pw PwO PwP PIfw PIPw
    [0, 0, 4, 3, 4, 5, 6, 6], // Modify: rPwO rPw rPwO frPwP fIfrPw fIPrPw
    [0, 0, 0, 2, 2, 2, 0, 0], // Effective:  Pf PO PP
    [0, 0, 3, 3, 3, 4, 6, 6], // Jump:       PPP PPP PPP fPPP fIfPPP fIfPPP
    [0, 4, 4, 4, 4, 5, 7, 7], // Subroutine: SPPP SPPP PPPS PPPS fPPPS fIfPPPS fIfPPPS
    [0, 4, 4, 4, 4, 6, 0, 0], // BitChange:  rPwO rPwP rPwO rPwP frPwPO
    [0, 4, 5, 4, 5, 6, 0, 0], // BitBranch:  rPPP rfPPP rPPP rfPPP PrfPPP
    [0, 0, 0, 4, 4, 5, 7, 7], // LimitRegister: OrPf OrPO OfrPP OfIfrPf OfIPrPf
    [0, 0, 0, 4, 5, 6, 7, 7], // LimitMemory:   OrPw OrPwO OfrPwP OfIfrPw OfIPrPw
    [0, 0, 0, 6, 0, 0, 0, 0], // Table8:  ORfffP
    [0, 0, 0, 10, 0, 0, 0, 0], // Table16: ten by the map
    [0, 0, 0, 4, 0, 0, 0, 0], // MoveImmediate: OPwO, OPPW
    [0, 0, 0, 5, 0, 0, 0, 0], // Move: OPrPw, OrPwP, OrPwO and their word forms
];

/// What a cell costs.
#[derive(Clone, Copy, Debug, PartialEq, Eq)]
pub enum Cost {
    /// An encoding that stops the machine.
    Stops,
    /// The prebyte alone costs nothing: its cycle belongs to the page 2 cell.
    Prebyte,
    Cycles(u8),
    /// Taken, not taken.
    Branch(u8, u8),
    Grid(Family),
}

impl Cost {
    /// The cost in one of the grid's columns, or none where the form is reserved.
    pub fn in_column(self, column: usize) -> Option<u8> {
        match self {
            Cost::Grid(family) => Some(GRID[family as usize][column]).filter(|&cost| cost != 0),
            _ => None,
        }
    }
}

pub fn column_of(form: IndexForm) -> usize {
    match form {
        IndexForm::Idx => IDX,
        IndexForm::Idx1 => IDX1,
        IndexForm::Idx2 => IDX2,
        IndexForm::DIdx => D_IDX,
        IndexForm::IndirectIdx2 => INDIRECT_IDX2,
    }
}

/// One cell of the map: what it does, its layout and its cost.
#[derive(Clone, Copy, Debug)]
pub struct Cell {
    pub operation: Operation,
    pub form: Form,
    pub cost: Cost,
}

const fn cell(operation: Operation, form: Form, cost: Cost) -> Cell {
    Cell { operation, form, cost }
}

/// A one-cycle inherent instruction, `O` in the column.
const fn quick(operation: Operation) -> Cell {
    cell(operation, Form::Inherent, Cost::Cycles(1))
}

/// An inherent instruction of several cycles.
const fn inherent(operation: Operation, cycles: u8) -> Cell {
    cell(operation, Form::Inherent, Cost::Cycles(cycles))
}

/// A conditional short branch, `PPP/P`.
const fn short(operation: Operation) -> Cell {
    cell(operation, Form::Relative8, Cost::Branch(3, 1))
}

/// A conditional long branch, `OPPP/OPO`.
const fn long(operation: Operation) -> Cell {
    cell(operation, Form::Relative16, Cost::Branch(4, 3))
}

const fn stops(operation: Operation, form: Form) -> Cell {
    cell(operation, form, Cost::Stops)
}

const fn imm8(operation: Operation) -> Cell {
    cell(operation, Form::Immediate8, Cost::Grid(Family::Byte))
}

const fn imm16(operation: Operation) -> Cell {
    cell(operation, Form::Immediate16, Cost::Grid(Family::Word))
}

const fn dir(operation: Operation, family: Family) -> Cell {
    cell(operation, Form::Direct, Cost::Grid(family))
}

const fn ext(operation: Operation, family: Family) -> Cell {
    cell(operation, Form::Extended, Cost::Grid(family))
}

const fn idx(operation: Operation, family: Family) -> Cell {
    cell(operation, Form::Indexed, Cost::Grid(family))
}

const BITS: Cost = Cost::Grid(Family::BitChange);
const BIT_BRANCH: Cost = Cost::Grid(Family::BitBranch);
const MOVE_IMMEDIATE: Cost = Cost::Grid(Family::MoveImmediate);
const MOVE: Cost = Cost::Grid(Family::Move);
const HOLE: Cell = inherent(TRAP, 10);

/// Page 1 (003 table A-2 sheet 1, 002 p. A-20).
pub static PAGE_1: [Cell; 256] = [
    // 00 to 0F
    stops(BGND, Form::Inherent),
    stops(MEM, Form::Inherent),
    quick(INY),
    quick(DEY),
    cell(LOOP, Form::Loop, Cost::Branch(3, 3)),
    idx(JMP, Family::Jump),
    ext(JMP, Family::Jump),
    cell(BSR, Form::Relative8, Cost::Cycles(4)),
    quick(INX),
    quick(DEX),
    stops(RTC, Form::Inherent),
    inherent(RTI, 8),
    cell(BSET, Form::IndexedMask, BITS),
    cell(BCLR, Form::IndexedMask, BITS),
    cell(BRSET, Form::IndexedMaskRelative, BIT_BRANCH),
    cell(BRCLR, Form::IndexedMaskRelative, BIT_BRANCH),
    // 10 to 1F
    cell(ANDCC, Form::Immediate8, Cost::Cycles(1)),
    inherent(EDIV, 11),
    quick(MUL),
    inherent(EMUL, 3),
    cell(ORCC, Form::Immediate8, Cost::Cycles(1)),
    idx(JSR, Family::Subroutine),
    ext(JSR, Family::Subroutine),
    dir(JSR, Family::Subroutine),
    cell(PAGE2, Form::Prebyte, Cost::Prebyte),
    idx(LEAY, Family::Effective),
    idx(LEAX, Family::Effective),
    idx(LEAS, Family::Effective),
    cell(BSET, Form::ExtendedMask, BITS),
    cell(BCLR, Form::ExtendedMask, BITS),
    cell(BRSET, Form::ExtendedMaskRelative, BIT_BRANCH),
    cell(BRCLR, Form::ExtendedMaskRelative, BIT_BRANCH),
    // 20 to 2F
    cell(BRA, Form::Relative8, Cost::Cycles(3)),
    cell(BRN, Form::Relative8, Cost::Cycles(1)),
    short(BHI),
    short(BLS),
    short(BCC),
    short(BCS),
    short(BNE),
    short(BEQ),
    short(BVC),
    short(BVS),
    short(BPL),
    short(BMI),
    short(BGE),
    short(BLT),
    short(BGT),
    short(BLE),
    // 30 to 3F
    inherent(PULX, 3),
    inherent(PULY, 3),
    inherent(PULA, 3),
    inherent(PULB, 3),
    inherent(PSHX, 2),
    inherent(PSHY, 2),
    inherent(PSHA, 2),
    inherent(PSHB, 2),
    inherent(PULC, 3),
    inherent(PSHC, 2),
    inherent(PULD, 3),
    inherent(PSHD, 2),
    stops(WAVR, Form::Inherent),
    inherent(RTS, 5),
    inherent(WAI, 7),
    inherent(SWI, 9),
    // 40 to 4F
    quick(NEGA),
    quick(COMA),
    quick(INCA),
    quick(DECA),
    quick(LSRA),
    quick(ROLA),
    quick(RORA),
    quick(ASRA),
    quick(ASLA),
    quick(LSRD),
    stops(CALL, Form::ExtendedPage),
    stops(CALL, Form::IndexedPage),
    cell(BSET, Form::DirectMask, BITS),
    cell(BCLR, Form::DirectMask, BITS),
    cell(BRSET, Form::DirectMaskRelative, BIT_BRANCH),
    cell(BRCLR, Form::DirectMaskRelative, BIT_BRANCH),
    // 50 to 5F
    quick(NEGB),
    quick(COMB),
    quick(INCB),
    quick(DECB),
    quick(LSRB),
    quick(ROLB),
    quick(RORB),
    quick(ASRB),
    quick(ASLB),
    quick(ASLD),
    dir(STAA, Family::Store),
    dir(STAB, Family::Store),
    dir(STD, Family::Store),
    dir(STY, Family::Store),
    dir(STX, Family::Store),
    dir(STS, Family::Store),
    // 60 to 6F
    idx(NEG, Family::Modify),
    idx(COM, Family::Modify),
    idx(INC, Family::Modify),
    idx(DEC, Family::Modify),
    idx(LSR, Family::Modify),
    idx(ROL, Family::Modify),
    idx(ROR, Family::Modify),
    idx(ASR, Family::Modify),
    idx(ASL, Family::Modify),
    idx(CLR, Family::Clear),
    idx(STAA, Family::Store),
    idx(STAB, Family::Store),
    idx(STD, Family::Store),
    idx(STY, Family::Store),
    idx(STX, Family::Store),
    idx(STS, Family::Store),
    // 70 to 7F
    ext(NEG, Family::Modify),
    ext(COM, Family::Modify),
    ext(INC, Family::Modify),
    ext(DEC, Family::Modify),
    ext(LSR, Family::Modify),
    ext(ROL, Family::Modify),
    ext(ROR, Family::Modify),
    ext(ASR, Family::Modify),
    ext(ASL, Family::Modify),
    ext(CLR, Family::Clear),
    ext(STAA, Family::Store),
    ext(STAB, Family::Store),
    ext(STD, Family::Store),
    ext(STY, Family::Store),
    ext(STX, Family::Store),
    ext(STS, Family::Store),
    // 80 to 8F
    imm8(SUBA),
    imm8(CMPA),
    imm8(SBCA),
    imm16(SUBD),
    imm8(ANDA),
    imm8(BITA),
    imm8(LDAA),
    quick(CLRA),
    imm8(EORA),
    imm8(ADCA),
    imm8(ORAA),
    imm8(ADDA),
    imm16(CPD),
    imm16(CPY),
    imm16(CPX),
    imm16(CPS),
    // 90 to 9F
    dir(SUBA, Family::Byte),
    dir(CMPA, Family::Byte),
    dir(SBCA, Family::Byte),
    dir(SUBD, Family::Word),
    dir(ANDA, Family::Byte),
    dir(BITA, Family::Byte),
    dir(LDAA, Family::Byte),
    quick(TSTA),
    dir(EORA, Family::Byte),
    dir(ADCA, Family::Byte),
    dir(ORAA, Family::Byte),
    dir(ADDA, Family::Byte),
    dir(CPD, Family::Word),
    dir(CPY, Family::Word),
    dir(CPX, Family::Word),
    dir(CPS, Family::Word),
    // A0 to AF
    idx(SUBA, Family::Byte),
    idx(CMPA, Family::Byte),
    idx(SBCA, Family::Byte),
    idx(SUBD, Family::Word),
    idx(ANDA, Family::Byte),
    idx(BITA, Family::Byte),
    idx(LDAA, Family::Byte),
    quick(NOP),
    idx(EORA, Family::Byte),
    idx(ADCA, Family::Byte),
    idx(ORAA, Family::Byte),
    idx(ADDA, Family::Byte),
    idx(CPD, Family::Word),
    idx(CPY, Family::Word),
    idx(CPX, Family::Word),
    idx(CPS, Family::Word),
    // B0 to BF
    ext(SUBA, Family::Byte),
    ext(CMPA, Family::Byte),
    ext(SBCA, Family::Byte),
    ext(SUBD, Family::Word),
    ext(ANDA, Family::Byte),
    ext(BITA, Family::Byte),
    ext(LDAA, Family::Byte),
    cell(TFR_EXG, Form::Transfer, Cost::Cycles(1)),
    ext(EORA, Family::Byte),
    ext(ADCA, Family::Byte),
    ext(ORAA, Family::Byte),
    ext(ADDA, Family::Byte),
    ext(CPD, Family::Word),
    ext(CPY, Family::Word),
    ext(CPX, Family::Word),
    ext(CPS, Family::Word),
    // C0 to CF
    imm8(SUBB),
    imm8(CMPB),
    imm8(SBCB),
    imm16(ADDD),
    imm8(ANDB),
    imm8(BITB),
    imm8(LDAB),
    quick(CLRB),
    imm8(EORB),
    imm8(ADCB),
    imm8(ORAB),
    imm8(ADDB),
    imm16(LDD),
    imm16(LDY),
    imm16(LDX),
    imm16(LDS),
    // D0 to DF
    dir(SUBB, Family::Byte),
    dir(CMPB, Family::Byte),
    dir(SBCB, Family::Byte),
    dir(ADDD, Family::Word),
    dir(ANDB, Family::Byte),
    dir(BITB, Family::Byte),
    dir(LDAB, Family::Byte),
    quick(TSTB),
    dir(EORB, Family::Byte),
    dir(ADCB, Family::Byte),
    dir(ORAB, Family::Byte),
    dir(ADDB, Family::Byte),
    dir(LDD, Family::Word),
    dir(LDY, Family::Word),
    dir(LDX, Family::Word),
    dir(LDS, Family::Word),
    // E0 to EF
    idx(SUBB, Family::Byte),
    idx(CMPB, Family::Byte),
    idx(SBCB, Family::Byte),
    idx(ADDD, Family::Word),
    idx(ANDB, Family::Byte),
    idx(BITB, Family::Byte),
    idx(LDAB, Family::Byte),
    idx(TST, Family::Test),
    idx(EORB, Family::Byte),
    idx(ADCB, Family::Byte),
    idx(ORAB, Family::Byte),
    idx(ADDB, Family::Byte),
    idx(LDD, Family::Word),
    idx(LDY, Family::Word),
    idx(LDX, Family::Word),
    idx(LDS, Family::Word),
    // F0 to FF
    ext(SUBB, Family::Byte),
    ext(CMPB, Family::Byte),
    ext(SBCB, Family::Byte),
    ext(ADDD, Family::Word),
    ext(ANDB, Family::Byte),
    ext(BITB, Family::Byte),
    ext(LDAB, Family::Byte),
    ext(TST, Family::Test),
    ext(EORB, Family::Byte),
    ext(ADCB, Family::Byte),
    ext(ORAB, Family::Byte),
    ext(ADDB, Family::Byte),
    ext(LDD, Family::Word),
    ext(LDY, Family::Word),
    ext(LDX, Family::Word),
    ext(LDS, Family::Word),
];

/// Page 2 up to its last instruction; every cell from 40 on is a trap
/// (003 table A-2 sheet 2, 002 p. A-21).
static PAGE_2_INSTRUCTIONS: [Cell; 64] = [
    // 00 to 0F
    cell(MOVW, Form::MoveImmediate16Indexed, MOVE_IMMEDIATE),
    cell(MOVW, Form::MoveExtendedIndexed, MOVE),
    cell(MOVW, Form::MoveIndexedIndexed, MOVE),
    cell(MOVW, Form::MoveImmediate16Extended, Cost::Cycles(5)),
    cell(MOVW, Form::MoveExtendedExtended, Cost::Cycles(6)),
    cell(MOVW, Form::MoveIndexedExtended, MOVE),
    inherent(ABA, 2),
    inherent(DAA, 3),
    cell(MOVB, Form::MoveImmediate8Indexed, MOVE_IMMEDIATE),
    cell(MOVB, Form::MoveExtendedIndexed, MOVE),
    cell(MOVB, Form::MoveIndexedIndexed, MOVE),
    cell(MOVB, Form::MoveImmediate8Extended, Cost::Cycles(4)),
    cell(MOVB, Form::MoveExtendedExtended, Cost::Cycles(6)),
    cell(MOVB, Form::MoveIndexedExtended, MOVE),
    inherent(TAB, 2),
    inherent(TBA, 2),
    // 10 to 1F
    inherent(IDIV, 12),
    inherent(FDIV, 12),
    cell(EMACS, Form::Extended, Cost::Cycles(13)),
    inherent(EMULS, 3),
    inherent(EDIVS, 12),
    inherent(IDIVS, 12),
    inherent(SBA, 2),
    inherent(CBA, 2),
    idx(MAXA, Family::LimitRegister),
    idx(MINA, Family::LimitRegister),
    idx(EMAXD, Family::LimitRegister),
    idx(EMIND, Family::LimitRegister),
    idx(MAXM, Family::LimitMemory),
    idx(MINM, Family::LimitMemory),
    idx(EMAXM, Family::LimitMemory),
    idx(EMINM, Family::LimitMemory),
    // 20 to 2F
    cell(LBRA, Form::Relative16, Cost::Cycles(4)),
    cell(LBRN, Form::Relative16, Cost::Cycles(3)),
    long(LBHI),
    long(LBLS),
    long(LBCC),
    long(LBCS),
    long(LBNE),
    long(LBEQ),
    long(LBVC),
    long(LBVS),
    long(LBPL),
    long(LBMI),
    long(LBGE),
    long(LBLT),
    long(LBGT),
    long(LBLE),
    // 30 to 3F
    HOLE,
    HOLE,
    HOLE,
    HOLE,
    HOLE,
    HOLE,
    HOLE,
    HOLE,
    HOLE,
    HOLE,
    stops(REV, Form::Inherent),
    stops(REVW, Form::Inherent),
    stops(WAV, Form::Inherent),
    idx(TBL, Family::Table8),
    stops(STOP, Form::Inherent),
    idx(ETBL, Family::Table16),
];

static LATER_HOLE: Cell = HOLE;

/// The byte that opens page 2.
pub const PREBYTE: u8 = 0x18;

/// The cell of an opcode on page 1 or 2.
pub fn cell_at(page: u8, opcode: u8) -> &'static Cell {
    let index = usize::from(opcode);
    if page == 1 {
        &PAGE_1[index]
    } else if index < PAGE_2_INSTRUCTIONS.len() {
        &PAGE_2_INSTRUCTIONS[index]
    } else {
        &LATER_HOLE
    }
}

/// Which cell stands at an address, and where its operand bytes begin.
#[derive(Clone, Copy)]
pub struct Found {
    pub page: u8,
    pub opcode: u8,
    pub cell: &'static Cell,
    pub operands: u16,
}

pub fn find(memory: &[u8], pc: u16) -> Found {
    let first = read8(memory, pc);
    let next = pc.wrapping_add(1);
    if first != PREBYTE {
        return Found { page: 1, opcode: first, cell: cell_at(1, first), operands: next };
    }
    let opcode = read8(memory, next);
    Found { page: 2, opcode, cell: cell_at(2, opcode), operands: pc.wrapping_add(2) }
}
