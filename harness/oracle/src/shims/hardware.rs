// Names that only core.rs mentions.
pub mod sam {
    pub struct Sam;
}
pub mod vdg {
    pub struct Vdg;
}
pub mod pia {
    pub struct Pia0;
    pub struct Pia1;
}
pub mod acia {
    pub struct Acia;
    impl Acia {
        pub fn new(_: u16) -> Result<Self, crate::Error> {
            unimplemented!()
        }
    }
}
pub mod debug {
    pub struct Breakpoint;
    pub enum ListMode {
        X,
    }
    pub enum StepMode {
        Off,
    }
}
pub struct Assembler;
impl Assembler {
    pub fn new() -> Self {
        Assembler
    }
    pub fn assemble_from_file(&self, _: &std::path::Path) -> Result<crate::Program, crate::Error> {
        unimplemented!()
    }
}
