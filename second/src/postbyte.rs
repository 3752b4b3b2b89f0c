//! Postbytes: indexed addressing, transfers and exchanges, loop primitives
//! (002 tables, p., and table 3-2, p. 3-6).

/// The register that an indexed address starts from.
#[derive(Clone, Copy, Debug, PartialEq, Eq)]
pub enum Base {
    X,
    Y,
    Sp,
    Pc,
}

impl Base {
    /// rr = 00 X, 01 Y, 10 SP, 11 PC (002 table 3-2).
    pub fn from_bits(rr: u8) -> Base {
        match rr & 3 {
            0 => Base::X,
            1 => Base::Y,
            2 => Base::Sp,
            _ => Base::Pc,
        }
    }
}

/// The accumulator that is added to a base.
#[derive(Clone, Copy, Debug, PartialEq, Eq)]
pub enum Accumulator {
    A,
    B,
    D,
}

/// What an indexed postbyte says.
#[derive(Clone, Copy, Debug, PartialEq, Eq)]
pub enum Index {
    /// `rr0nnnnn`: a signed 5-bit offset.
    Offset5 { base: Base, offset: i16 },
    /// `rr1pnnnn` with p = 0: the base steps, then it is the address.
    StepBefore { base: Base, amount: i16 },
    /// `rr1pnnnn` with p = 1: the base is the address, then it steps.
    StepAfter { base: Base, amount: i16 },
    /// `111rr00s`: one more byte, s is the sign of the 9-bit offset.
    Offset9 { base: Base, negative: bool },
    /// `111rr010`: two more bytes.
    Offset16 { base: Base },
    /// `111rr011`: two more bytes lead to a pointer.
    Indirect16 { base: Base },
    /// `111rr1aa`: an unsigned accumulator.
    Plus { base: Base, accumulator: Accumulator },
    /// `111rr111`: base plus D leads to a pointer.
    IndirectD { base: Base },
}

/// The address forms that the cost table tells apart (003 section A.4).
#[derive(Clone, Copy, Debug, PartialEq, Eq)]
pub enum IndexForm {
    Idx,
    Idx1,
    Idx2,
    DIdx,
    IndirectIdx2,
}

impl Index {
    pub fn decode(postbyte: u8) -> Index {
        if postbyte & 0xE0 == 0xE0 {
            return Index::decode_extended(postbyte);
        }
        let base = Base::from_bits(postbyte >> 6);
        if postbyte & 0x20 == 0 {
            return Index::Offset5 { base, offset: signed5(postbyte) };
        }
        let amount = step_amount(postbyte);
        if postbyte & 0x10 == 0 {
            Index::StepBefore { base, amount }
        } else {
            Index::StepAfter { base, amount }
        }
    }

    /// The postbytes `111rr...`.
    fn decode_extended(postbyte: u8) -> Index {
        let base = Base::from_bits(postbyte >> 3);
        match postbyte & 7 {
            0 => Index::Offset9 { base, negative: false },
            1 => Index::Offset9 { base, negative: true },
            2 => Index::Offset16 { base },
            3 => Index::Indirect16 { base },
            4 => Index::Plus { base, accumulator: Accumulator::A },
            5 => Index::Plus { base, accumulator: Accumulator::B },
            6 => Index::Plus { base, accumulator: Accumulator::D },
            _ => Index::IndirectD { base },
        }
    }

    pub fn form(self) -> IndexForm {
        match self {
            Index::Offset5 { .. } | Index::StepBefore { .. } => IndexForm::Idx,
            Index::StepAfter { .. } | Index::Plus { .. } => IndexForm::Idx,
            Index::Offset9 { .. } => IndexForm::Idx1,
            Index::Offset16 { .. } => IndexForm::Idx2,
            Index::Indirect16 { .. } => IndexForm::IndirectIdx2,
            Index::IndirectD { .. } => IndexForm::DIdx,
        }
    }

    pub fn base(self) -> Base {
        match self {
            Index::Offset5 { base, .. } | Index::StepBefore { base, .. } => base,
            Index::StepAfter { base, .. } | Index::Plus { base, .. } => base,
            Index::Offset9 { base, .. } | Index::Offset16 { base } => base,
            Index::Indirect16 { base } | Index::IndirectD { base } => base,
        }
    }

    /// How many bytes follow the postbyte for its sake.
    pub fn extension_bytes(self) -> u16 {
        match self.form() {
            IndexForm::Idx | IndexForm::DIdx => 0,
            IndexForm::Idx1 => 1,
            IndexForm::Idx2 | IndexForm::IndirectIdx2 => 2,
        }
    }
}

/// Bits 4 to 0 as a number from -16 to 15.
fn signed5(postbyte: u8) -> i16 {
    let low = i16::from(postbyte & 0x1F);
    if low >= 16 {
        low - 32
    } else {
        low
    }
}

/// nnnn 0 to 7 adds 1 to 8, 8 to 15 adds -8 to -1.
fn step_amount(postbyte: u8) -> i16 {
    let low = i16::from(postbyte & 0x0F);
    if low < 8 {
        low + 1
    } else {
        low - 16
    }
}

/// A register that a transfer or an exchange can name.
#[derive(Clone, Copy, Debug, PartialEq, Eq)]
pub enum Register {
    A,
    B,
    Ccr,
    D,
    X,
    Y,
    Sp,
}

impl Register {
    /// The code in three bits; 3 names the internal TMP registers and is reserved.
    pub fn from_code(code: u8) -> Option<Register> {
        match code & 7 {
            0 => Some(Register::A),
            1 => Some(Register::B),
            2 => Some(Register::Ccr),
            4 => Some(Register::D),
            5 => Some(Register::X),
            6 => Some(Register::Y),
            7 => Some(Register::Sp),
            _ => None,
        }
    }

    pub fn is_wide(self) -> bool {
        matches!(self, Register::D | Register::X | Register::Y | Register::Sp)
    }
}

/// The two registers of a transfer or exchange postbyte; bit 3 is ignored.
pub fn transfer_registers(postbyte: u8) -> Option<(Register, Register)> {
    let first = Register::from_code(postbyte >> 4)?;
    let second = Register::from_code(postbyte)?;
    Some((first, second))
}

/// The six loop primitives, bits 7 to 5 of their postbyte (002 table A-6, p. A-25).
#[derive(Clone, Copy, Debug, PartialEq, Eq)]
pub enum LoopKind {
    Dbeq,
    Dbne,
    Tbeq,
    Tbne,
    Ibeq,
    Ibne,
}

/// Kind and counter of a loop postbyte. Kinds 6 and 7 and counters 2 and 3 are
/// reserved; bit 4 is the sign of the offset and bit 3 is ignored.
pub fn loop_parts(postbyte: u8) -> Option<(LoopKind, Register)> {
    let kind = match postbyte >> 5 {
        0 => LoopKind::Dbeq,
        1 => LoopKind::Dbne,
        2 => LoopKind::Tbeq,
        3 => LoopKind::Tbne,
        4 => LoopKind::Ibeq,
        5 => LoopKind::Ibne,
        _ => return None,
    };
    match Register::from_code(postbyte)? {
        Register::Ccr => None,
        counter => Some((kind, counter)),
    }
}
