// Error, ErrorKind and the macros the originals call. Shapes are forced by their uses:
//   Error::new(ErrorKind::Syntax, None, &str)      obj.rs, parse.rs, program.rs
//   Error { kind, ctx, msg }                       core.rs
//   `?` on io::Error                               program.rs, hex.rs, core.rs
//   syntax_err!(&str | String)                     obj.rs, parse.rs, program.rs
//   syntax_err_ctx!(Some(ctx), &str), runtime_err!(Some(ctx), fmt, args..)   instructions.rs
use crate::registers;

#[derive(Debug, Clone, Copy, PartialEq, Eq)]
pub enum ErrorKind {
    General,
    Syntax,
    Reference,
    Runtime,
    Memory,
    Test,
    IO,
}

#[derive(Debug)]
pub struct Error {
    pub kind: ErrorKind,
    pub ctx: Option<registers::Set>,
    pub msg: String,
}
impl Error {
    pub fn new(kind: ErrorKind, ctx: Option<registers::Set>, msg: &str) -> Self {
        Error { kind, ctx, msg: msg.to_string() }
    }
}
impl std::fmt::Display for Error {
    fn fmt(&self, f: &mut std::fmt::Formatter) -> std::fmt::Result {
        write!(f, "{:?}: {}", self.kind, self.msg)
    }
}
impl From<std::io::Error> for Error {
    fn from(e: std::io::Error) -> Self {
        Error::new(ErrorKind::IO, None, &e.to_string())
    }
}

macro_rules! syntax_err {
    ($e:expr) => {
        $crate::Error::new($crate::ErrorKind::Syntax, None, AsRef::<str>::as_ref(&$e))
    };
}
macro_rules! general_err {
    ($e:expr) => {
        $crate::Error::new($crate::ErrorKind::General, None, AsRef::<str>::as_ref(&$e))
    };
}
macro_rules! syntax_err_ctx {
    ($c:expr, $e:expr) => {
        $crate::Error::new($crate::ErrorKind::Syntax, $c, AsRef::<str>::as_ref(&$e))
    };
}
macro_rules! runtime_err {
    ($c:expr, $($a:tt)*) => { $crate::Error::new($crate::ErrorKind::Runtime, $c, format!($($a)*).as_str()) };
}
macro_rules! verbose_println { ($($a:tt)*) => { if $crate::config::ARGS.verbose { println!($($a)*) } }; }
macro_rules! info { ($($a:tt)*) => { println!($($a)*) }; }
macro_rules! warn { ($($a:tt)*) => { println!($($a)*) }; }
macro_rules! blue {
    ($s:expr) => {
        concat!("\x1b[34m", $s, "\x1b[0m")
    };
}
macro_rules! green {
    ($s:expr) => {
        concat!("\x1b[32m", $s, "\x1b[0m")
    };
}
macro_rules! red {
    ($s:expr) => {
        concat!("\x1b[31m", $s, "\x1b[0m")
    };
}
macro_rules! xor {
    ($a:expr, $b:expr) => {
        ($a) != ($b)
    };
}
