//! gorsat/coco 9c07c1f94d (MIT licence: see NOTICE at the root), its files taken unchanged from the folder COCO_SRC, over stand-ins for what is
//! not published with them: `u8u16` by document 01's rule, errors, registers, switches, and names of the CPU side that never run.
#![allow(warnings)]

// What the originals reach through `use super::*`.
use std::collections::{HashMap, VecDeque};
use std::ffi::OsStr;
use std::path::Path;
use std::time::Instant;
use std::{fmt, io};

#[macro_use]
#[path = "shims/error.rs"]
mod error_shim;
pub use error_shim::{Error, ErrorKind};

#[path = "shims/u8u16.rs"]
pub mod u8u16_shim;
pub use u8u16_shim::u8u16;

#[path = "shims/config.rs"]
pub mod config;
#[path = "shims/hardware.rs"]
mod hardware_shim;
#[path = "shims/memory.rs"]
pub mod memory;
#[path = "shims/registers.rs"]
pub mod registers;
#[path = "shims/test.rs"]
pub mod test;
use hardware_shim::{acia, debug, pia, sam, vdg, Assembler};

use crate::core::Core;
use crate::program::Program;

include!(concat!(env!("OUT_DIR"), "/originals.rs"));
