// u8u16 by document 01's rule: 8 or 16 bits wide; widening gives a zero high byte unless sign extension is named.
// Methods derived from their uses (file:what forces the shape):
//   enum variants u8(u8)/u16(u16) used as constructors AND patterns     instructions.rs __cmp, __st; obj.rs
//   new(lsb, Option<msb>)                                               instructions.rs __sex
//   size() -> u16, msb() -> Option<u8>, lsb() -> u8                     obj.rs calc_size, program.rs write_output_files
//   get_as_bytes(&mut [u8]) -> usize                                    obj.rs to_bytes
//   u8() on a 16-bit value must give the low byte                       obj.rs five-bit offsets (`val.u8() & 0b11111` after sign_extended)
//   force_signed(negate) -> (u8u16, bool)                               parse.rs eval
//   from_u16_shrink(u16)                                                parse.rs _eval_binary
//   PartialEq + Copy                                                    program.rs val_cache
#![allow(non_camel_case_types)]

#[derive(Debug, Clone, Copy, PartialEq, Eq)]
pub enum u8u16 {
    u8(u8),
    u16(u16),
}

impl u8u16 {
    pub fn new(lsb: u8, msb: Option<u8>) -> Self {
        match msb {
            Some(m) => u8u16::u16((m as u16) << 8 | lsb as u16),
            None => u8u16::u8(lsb),
        }
    }
    pub fn from_u16_shrink(u: u16) -> Self {
        if u < 0x100 {
            u8u16::u8(u as u8)
        } else {
            u8u16::u16(u)
        }
    }
    pub fn is_u8(&self) -> bool {
        matches!(self, u8u16::u8(_))
    }
    pub fn size(&self) -> u16 {
        if self.is_u8() {
            1
        } else {
            2
        }
    }
    pub fn u8(&self) -> u8 {
        self.lsb()
    }
    pub fn u16(&self) -> u16 {
        match *self {
            u8u16::u8(b) => b as u16,
            u8u16::u16(w) => w,
        }
    }
    pub fn lsb(&self) -> u8 {
        match *self {
            u8u16::u8(b) => b,
            u8u16::u16(w) => w as u8,
        }
    }
    pub fn msb(&self) -> Option<u8> {
        match *self {
            u8u16::u8(_) => None,
            u8u16::u16(w) => Some((w >> 8) as u8),
        }
    }
    pub fn sign_extended(&self) -> Self {
        match *self {
            u8u16::u8(b) => u8u16::u16(b as i8 as i16 as u16),
            w => w,
        }
    }
    /// The value as a signed number (negated if asked): an 8-bit value that leaves -128..127 becomes 16 bits wide,
    /// a 16-bit value stays 16 bits wide. The flag (never read by the originals) says that 16 bits do not hold it.
    pub fn force_signed(&self, negate: bool) -> (Self, bool) {
        match *self {
            u8u16::u8(b) => {
                let n: i16 = if negate { -(b as i16) } else { b as i16 };
                if (-128..=127).contains(&n) {
                    (u8u16::u8(n as u8), false)
                } else {
                    (u8u16::u16(n as u16), false)
                }
            }
            u8u16::u16(w) => {
                let r = if negate { w.wrapping_neg() } else { w };
                let over = if negate { w > 0x8000 } else { w > 0x7fff };
                (u8u16::u16(r), over)
            }
        }
    }
    pub fn get_as_bytes(&self, buf: &mut [u8]) -> usize {
        match *self {
            u8u16::u8(b) => {
                buf[0] = b;
                1
            }
            u8u16::u16(w) => {
                buf[0] = (w >> 8) as u8;
                buf[1] = w as u8;
                2
            }
        }
    }
    pub fn div(&self, rhs: Self) -> Self {
        u8u16::from_u16_shrink(self.u16() / rhs.u16())
    }
    pub fn modulo(&self, rhs: Self) -> Self {
        u8u16::from_u16_shrink(self.u16() % rhs.u16())
    }
}
impl std::fmt::Display for u8u16 {
    fn fmt(&self, f: &mut std::fmt::Formatter) -> std::fmt::Result {
        let s = match *self {
            u8u16::u8(b) => format!("{:02X}", b),
            u8u16::u16(w) => format!("{:04X}", w),
        };
        write!(f, "{:width$}", s, width = f.width().unwrap_or(0))
    }
}
