// memory.rs's part of Core, and the two methods of other missing files that core.rs calls. Never run.
use crate::{core::Core, u8u16, Error};
#[derive(Debug, Clone, Copy, PartialEq, Eq)]
pub enum AccessType {
    Generic,
    Program,
    UserStack,
    SystemStack,
}
impl Core {
    pub fn _read_u8(&self, _: AccessType, _: u16, _: Option<u8>) -> Result<u8, Error> {
        unimplemented!()
    }
    pub fn _read_u8u16(&self, _: AccessType, _: u16, _: u16) -> Result<u8u16, Error> {
        unimplemented!()
    }
    pub fn force_reset_vector(&mut self, _: u16) -> Result<(), Error> {
        unimplemented!()
    }
    pub fn try_auto_load_symbols(&mut self, _: &std::path::Path) -> Result<usize, Error> {
        unimplemented!()
    }
}
