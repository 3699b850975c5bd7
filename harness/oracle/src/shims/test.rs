// test.rs: the fields parse.rs fills, no evaluation.
use crate::{core::Core, registers, u8u16, Error};
#[derive(Debug)]
pub enum RegOrAddr {
    Reg(registers::Name),
    Addr(u16),
}
#[derive(Debug)]
pub enum AddrOrVal {
    Addr(u16),
    Val(u8u16),
}
#[derive(Debug)]
pub struct TestCriterion {
    pub lhs_src: String,
    pub rhs_src: String,
    pub lhs: Option<RegOrAddr>,
    pub rhs: Option<AddrOrVal>,
}
impl TestCriterion {
    pub fn eval(&self, _: &Core) -> Result<(), Error> {
        unimplemented!()
    }
}
impl std::fmt::Display for TestCriterion {
    fn fmt(&self, f: &mut std::fmt::Formatter) -> std::fmt::Result {
        write!(f, "{}={}", self.lhs_src, self.rhs_src)
    }
}
