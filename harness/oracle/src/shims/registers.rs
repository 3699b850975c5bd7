// registers::Name / Set / CCBit: only so that instructions.rs compiles; no emulation runs in the harness,
// so the flag arithmetic is left unimplemented.
use crate::u8u16;
#[derive(Debug, Clone, Copy, PartialEq, Eq)]
pub enum Name {
    A,
    B,
    D,
    X,
    Y,
    U,
    S,
    PC,
    CC,
    DP,
    Z,
}
impl Name {
    pub fn from_str(s: &str) -> Name {
        match s {
            "A" => Name::A,
            "B" => Name::B,
            "D" => Name::D,
            "X" => Name::X,
            "Y" => Name::Y,
            "U" => Name::U,
            "S" => Name::S,
            "PC" => Name::PC,
            "CC" => Name::CC,
            "DP" => Name::DP,
            _ => Name::Z,
        }
    }
}
pub fn reg_size(n: Name) -> u16 {
    match n {
        Name::A | Name::B | Name::CC | Name::DP => 1,
        _ => 2,
    }
}
pub enum CCBit {
    C,
    V,
    Z,
    N,
    I,
    H,
    F,
    E,
}
#[derive(Debug, Clone, Copy, Default)]
pub struct Cc {
    pub reg: u8,
}
macro_rules! un { ($($n:ident($($a:ident: $t:ty),*) -> $r:ty;)*) => { $(pub fn $n(&mut self, $($a: $t),*) -> $r { unimplemented!() })* } }
impl Cc {
    pub fn is_set(&self, _: CCBit) -> bool {
        unimplemented!()
    }
    un! {
        set(b: CCBit, v: bool) -> ();
        add_u8(a: u8, b: u8, c: bool) -> u8; add_u16(a: u16, b: u16) -> u16;
        sub_u8(a: u8, b: u8, c: bool) -> u8; sub_u16(a: u16, b: u16) -> u16;
        neg_u8(a: u8) -> u8; and_u8(a: u8, b: u8) -> u8; and_u16(a: u16, b: u16) -> u16; or_u8(a: u8, b: u8) -> u8;
        xor_u8(a: u8, b: u8) -> u8; inc_u8(a: u8) -> u8; dec_u8(a: u8) -> u8; cmp_u16(a: u16, b: u16) -> ();
        cmp_u8(a: u8, b: u8) -> (); shl_u8(a: u8) -> u8; shr_u8(a: u8, k: bool) -> u8; rol_u8(a: u8) -> u8;
        ror_u8(a: u8) -> u8; com_u8(a: u8) -> u8; mul(a: u8, b: u8) -> u16;
    }
}
#[derive(Debug, Clone, Copy, Default)]
pub struct Set {
    pub cc: Cc,
    pub a: u8,
}
impl Set {
    pub fn get_register(&self, _: Name) -> u8u16 {
        unimplemented!()
    }
    pub fn set_register(&mut self, _: Name, _: u8u16) {
        unimplemented!()
    }
}
