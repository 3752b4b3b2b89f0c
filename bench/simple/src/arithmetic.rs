//! Multiplication, division, decimal adjustment and table look-up.
//!
//! A code or a register that the manual leaves undefined keeps its old value.

use crate::core::{Core, IX, IY};

/// The part `fraction` / 256 of the way from the first entry to the second, rounded down.
#[inline(always)]
fn between(first: i32, second: i32, fraction: u8) -> i32 {
    first + ((i32::from(fraction) * (second - first)) >> 8)
}

impl Core<'_> {
    #[inline(always)]
    pub fn mul(&mut self) {
        let product = u16::from(self.a) * u16::from(self.b);
        self.set_d(product);
        self.flags.set_c(product & 0x80 != 0);
    }

    #[inline(always)]
    fn multiplied(&mut self, product: u32) {
        self.set_y_d(product);
        self.flags.nz32(product);
        self.flags.set_c(product & 0x8000 != 0);
    }

    #[inline(always)]
    pub fn emul(&mut self) {
        self.multiplied(u32::from(self.d()) * u32::from(self.index[IY]));
    }

    #[inline(always)]
    pub fn emuls(&mut self) {
        let product = i32::from(self.d() as i16) * i32::from(self.index[IY] as i16);
        self.multiplied(product as u32);
    }

    /// C is the carry out of bit 15, the other codes are those of all 32 bits.
    #[inline(always)]
    pub fn emacs(&mut self, address: u16) {
        let factor = |at| i32::from(self.read16(at) as i16);
        let product = (factor(self.index[IX]) * factor(self.index[IY])) as u32;
        let before = self.read32(address);
        let result = before.wrapping_add(product);
        self.write32(address, result);
        self.flags.nz32(result);
        self.flags.set_v(((before ^ result) & (product ^ result)) >> 31 != 0);
        self.flags.set_c((before & 0xFFFF) + (product & 0xFFFF) > 0xFFFF);
    }

    #[inline(always)]
    pub fn idiv(&mut self) {
        let (dividend, divisor) = (self.d(), self.index[IX]);
        self.flags.set_v(false);
        self.flags.set_c(divisor == 0);
        self.index[IX] = dividend.checked_div(divisor).unwrap_or(0xFFFF);
        if divisor != 0 {
            self.set_d(dividend % divisor);
        }
        self.flags.z16(self.index[IX]);
    }

    #[inline(always)]
    pub fn fdiv(&mut self) {
        let (dividend, divisor) = (u32::from(self.d()) << 16, u32::from(self.index[IX]));
        let too_large = self.index[IX] <= self.d();
        self.flags.set_v(too_large);
        self.flags.set_c(divisor == 0);
        if too_large {
            self.index[IX] = 0xFFFF;
        } else {
            self.index[IX] = (dividend / divisor) as u16;
            self.set_d((dividend % divisor) as u16);
        }
        self.flags.z16(self.index[IX]);
    }

    #[inline(always)]
    pub fn idivs(&mut self) {
        let (dividend, divisor) = (i32::from(self.d() as i16), i32::from(self.index[IX] as i16));
        self.flags.set_c(divisor == 0);
        if divisor == 0 {
            return;
        }
        let quotient = dividend / divisor;
        self.flags.set_v(quotient > 0x7FFF);
        if quotient > 0x7FFF {
            return;
        }
        self.set_d((dividend % divisor) as u16);
        self.index[IX] = self.flags.nz16(quotient as u16);
    }

    #[inline(always)]
    pub fn ediv(&mut self) {
        let (dividend, divisor) = (self.y_d(), u32::from(self.index[IX]));
        self.flags.set_c(divisor == 0);
        if divisor == 0 {
            return;
        }
        let quotient = dividend / divisor;
        self.flags.set_v(quotient > 0xFFFF);
        if quotient > 0xFFFF {
            return;
        }
        self.set_d((dividend % divisor) as u16);
        self.index[IY] = self.flags.nz16(quotient as u16);
    }

    /// With 64 bits no quotient overflows, not even that of the lowest number by -1.
    #[inline(always)]
    pub fn edivs(&mut self) {
        let (dividend, divisor) = (i64::from(self.y_d() as i32), i64::from(self.index[IX] as i16));
        self.flags.set_c(divisor == 0);
        if divisor == 0 {
            return;
        }
        let quotient = dividend / divisor;
        let too_large = i16::try_from(quotient).is_err();
        self.flags.set_v(too_large);
        if too_large {
            return;
        }
        self.set_d((dividend % divisor) as u16);
        self.index[IY] = self.flags.nz16(quotient as u16);
    }

    /// DAA. Where the manual's table has no row for C, H and A nothing is added and C stays.
    #[inline(always)]
    pub fn decimal_adjust(&mut self) {
        let (high, low) = (self.a >> 4, self.a & 0xF);
        let (c, h) = (self.flags.c(), self.flags.h());
        let without_row = h && low > 3 || c && high > if h { 3 } else { 2 };
        if !without_row {
            let tens = c || high > 9 || high == 9 && low > 9;
            let units = h || low > 9;
            let added = if tens { 0x60 } else { 0 } + if units { 0x06 } else { 0 };
            self.a = self.a.wrapping_add(added);
            self.flags.set_c(tens);
        }
        self.flags.nz8(self.a);
    }

    #[inline(always)]
    pub fn look_up8(&mut self, address: u16) {
        let entry = |at| i32::from(self.read8(at));
        let found = between(entry(address), entry(address.wrapping_add(1)), self.b);
        self.a = self.flags.nz8(found as u8);
    }

    #[inline(always)]
    pub fn look_up16(&mut self, address: u16) {
        let entry = |at| i32::from(self.read16(at));
        let found = between(entry(address), entry(address.wrapping_add(2)), self.b);
        let found = self.flags.nz16(found as u16);
        self.set_d(found);
    }
}
