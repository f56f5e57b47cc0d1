//! What the bought files lean on and is not among them: macros, types and modules of their own program, and names of two crates.
//! It is as little as lets them compile unchanged. What no case calls is `unimplemented!`, a panic that ends the harness.
//!
//! Of all this a case meets: `xor!` (V of `shl_u8` and `rol_u8`); the errors, by kind and message; `config::debug` with the log of
//! accesses behind it; and of `instructions` an Instance, its mode, its sizes, and its effective address, which starts as 0.

// The macros. The colours belong to Display and to the messages, which no case reads.
macro_rules! xor {
    ($a:expr, $b:expr) => {
        $a != $b
    };
}
macro_rules! red {
    ($text:literal) => {
        $text
    };
}
macro_rules! green {
    ($text:literal) => {
        $text
    };
}
macro_rules! blue {
    ($text:literal) => {
        $text
    };
}
macro_rules! info {
    ($($text:tt)*) => {{
        let _ = format_args!($($text)*);
    }};
}
macro_rules! warn {
    ($($text:tt)*) => {
        info!($($text)*)
    };
}
macro_rules! verbose_println {
    ($($text:tt)*) => {
        info!($($text)*)
    };
}
macro_rules! runtime_err {
    ($ctx:expr, $($text:tt)*) => {
        crate::Error::new(crate::ErrorKind::Runtime, $ctx, &format!($($text)*))
    };
}
macro_rules! general_err {
    ($($text:tt)*) => {
        crate::Error::new(crate::ErrorKind::General, None, &format!($($text)*))
    };
}

// What stood at their program's root, beside the modules.
pub use std::collections::{HashMap, VecDeque};
pub use std::ffi::OsStr;
pub use std::path::Path;
pub use std::time::Instant;

use crate::core::{Core, InterruptType};
use crate::memory::AccessType;
use crate::registers::{Name, Set};
use crate::u8oru16::u8u16;

#[derive(Debug, PartialEq, Eq)]
pub enum ErrorKind {
    Exit,
    General,
    Memory,
    Runtime,
    Syntax,
    Test,
}

#[derive(Debug)]
pub struct Error {
    pub kind: ErrorKind,
    pub ctx: Option<Set>,
    pub msg: String,
}
impl Error {
    pub fn new(kind: ErrorKind, ctx: Option<Set>, msg: &str) -> Self { Error { kind, ctx, msg: msg.into() } }
}
impl std::fmt::Display for Error {
    fn fmt(&self, f: &mut std::fmt::Formatter) -> std::fmt::Result { f.write_str(&self.msg) }
}
impl From<std::io::Error> for Error {
    fn from(error: std::io::Error) -> Self { general_err!("{error}") }
}

pub struct Assembler;
impl Assembler {
    pub fn new() -> Self { unimplemented!() }
    pub fn assemble_from_file(&self, _: &Path) -> Result<Program, Error> { unimplemented!() }
}
pub struct Program {
    pub lines: Vec<Line>,
}
pub struct Line {
    pub obj: Option<Object>,
}
pub struct Object;
impl Object {
    pub fn bob_ref(&self) -> Option<&BinaryObject> { unimplemented!() }
}
pub struct BinaryObject {
    pub addr: u16,
    pub size: u16,
}
impl BinaryObject {
    pub fn to_bytes(&self, _: &mut [u8]) -> u16 { unimplemented!() }
}

/// The debugger's part of Core.
impl Core {
    /// The Rust calls this at each read and write, before it looks at the map, wherever `config::debug` is on: so
    /// `watch_hits` is the log of a case's accesses.
    pub fn debug_check_for_watch_hit(&self, addr: u16) { self.watch_hits.borrow_mut().push(addr) }
    pub fn try_auto_load_symbols(&mut self, _: &Path) -> Result<usize, Error> { unimplemented!() }
    pub fn fault(&mut self, _: u16, _: &Error) { unimplemented!() }
    pub fn pre_instruction_debug_check(&mut self, _: u16) -> bool { unimplemented!() }
    pub fn post_instruction_debug_check(&mut self, _: u16, _: &instructions::Outcome) { unimplemented!() }
    pub fn debug_cli(&mut self) -> Result<(), Error> { unimplemented!() }
}

pub mod config {
    pub struct Args {
        pub mhz: Option<f32>,
        pub perf: bool,
        pub time: Option<f32>,
        pub trace: bool,
    }
    pub static ARGS: Args = Args { mhz: None, perf: false, time: None, trace: false };
    pub fn auto_load_syms() -> bool { false }
    pub fn debug() -> bool { true }
    /// Operands as text are left out: they are not part of an answer.
    pub fn help_humans() -> bool { false }
}

pub mod debug {
    pub struct Breakpoint;
    pub struct ListMode;
    pub enum StepMode {
        Off,
    }
}

pub mod instructions {
    use super::*;

    /// The Rust's match has an arm for modes beyond its six: there was at least one more.
    #[derive(Clone, Copy, Debug, PartialEq, Eq)]
    pub enum AddressingMode {
        Inherent,
        Immediate,
        Direct,
        Indexed,
        Extended,
        Relative,
        Other,
    }
    pub enum PBT {
        NA,
        TransferExchange,
        PushPull,
    }
    pub struct TEPostByte;
    impl TEPostByte {
        pub fn to_string(_: u8) -> String { unimplemented!() }
    }
    pub struct PPPostByte;
    impl PPPostByte {
        pub fn to_string(_: u8, _: bool) -> String { unimplemented!() }
    }
    #[derive(Debug)]
    pub enum Meta {
        CWAI,
        EXIT,
        SWI,
        SYNC,
    }
    impl Meta {
        pub fn to_interrupt_type(&self) -> Option<InterruptType> { unimplemented!() }
    }
    #[derive(Clone, Copy)]
    pub struct Detail {
        pub sz: u16,
        pub clk: u16,
    }
    pub struct Desc {
        pub name: &'static str,
        pub pbt: PBT,
        pub reg: Name,
        pub eval: fn(&mut Core, &mut Outcome) -> Result<(), Error>,
    }
    #[derive(Clone, Copy)]
    pub struct Flavor {
        pub mode: AddressingMode,
        pub detail: Detail,
        pub desc: &'static Desc,
    }
    pub struct Instance {
        pub buf: [u8; 5],
        pub ea: u16,
        pub flavor: Flavor,
        pub operand: Option<String>,
        pub opsize: u16,
        pub size: u16,
    }
    impl Instance {
        pub fn new(_: &Set, flavor: Option<Flavor>) -> Self {
            static NAMELESS: Desc = Desc { name: "", pbt: PBT::NA, reg: Name::Z, eval: |_, _| unimplemented!() };
            let none = Flavor { mode: AddressingMode::Other, detail: Detail { sz: 0, clk: 0 }, desc: &NAMELESS };
            Instance { buf: [0; 5], ea: 0, flavor: flavor.unwrap_or(none), operand: None, opsize: 0, size: 0 }
        }
    }
    pub struct Write {
        pub at: AccessType,
        pub addr: u16,
        pub val: u8u16,
    }
    pub struct Outcome {
        pub inst: Instance,
        pub meta: Option<Meta>,
        pub new_ctx: Set,
        pub writes: Option<Vec<Write>>,
    }
    impl Outcome {
        pub fn new(_: Instance, _: Set) -> Self { unimplemented!() }
    }
    pub fn init() {}
    pub fn opcode_to_flavor(_: u16) -> Option<Flavor> { unimplemented!() }
    pub fn is_high_byte_of_16bit_instruction(_: u8) -> bool { unimplemented!() }
}

// The devices. A case that reached one would lie at FF00-FFDF, outside the comparison.
pub mod acia {
    use super::Error;

    pub struct Acia;
    impl Acia {
        pub fn new(_: u16) -> Result<Self, Error> { unimplemented!() }
        pub fn owns_address(&self, _: u16) -> bool { unimplemented!() }
        pub fn read(&self, _: u16) -> Result<u8, Error> { unimplemented!() }
        pub fn write(&mut self, _: u16, _: u8) -> Result<(), Error> { unimplemented!() }
    }
}

pub mod sam {
    pub struct Sam;
    impl Sam {
        pub fn write(&mut self, _: usize) {}
    }
}

pub mod sound {
    pub struct AudioSample;
    impl AudioSample {
        pub fn new(_: f32) -> Self { AudioSample }
    }
}

pub mod vdg {
    pub const SCREEN_DIM_X: usize = 256;
    pub const SCREEN_DIM_Y: usize = 192;
    pub struct Vdg;
}

pub mod test {
    use super::{Core, Error};

    pub struct TestCriterion;
    impl TestCriterion {
        pub fn eval(&self, _: &Core) -> Result<(), Error> { unimplemented!() }
    }
    impl std::fmt::Display for TestCriterion {
        fn fmt(&self, _: &mut std::fmt::Formatter) -> std::fmt::Result { unimplemented!() }
    }
}

// The crate regex, for hex.rs.
pub struct Regex;
impl Regex {
    pub fn new(_: &str) -> Result<Self, Error> { unimplemented!() }
    pub fn captures(&self, _: &str) -> Option<Captures> { unimplemented!() }
}
pub struct Captures;
impl Captures {
    pub fn get(&self, _: usize) -> Option<Match> { unimplemented!() }
}
pub struct Match;
impl Match {
    pub fn as_str(&self) -> &str { unimplemented!() }
}

// The crate minifb, for pia.rs.
#[rustfmt::skip]
#[derive(Clone, Copy, Debug, PartialEq, Eq, Hash)]
pub enum Key {
    A, B, C, D, E, F, G, H, I, J, K, L, M, N, O, P, Q, R, S, T, U, V, W, X, Y, Z,
    Key0, Key1, Key2, Key3, Key4, Key5, Key6, Key7, Key8, Key9,
    Apostrophe, Backspace, Comma, Down, Enter, Equal, Escape, Home, Left, LeftShift, Minus, Period, Right, RightShift, Semicolon,
    Slash, Space, Unknown, Up,
}
pub enum MouseButton {
    Left,
    Right,
}
pub enum MouseMode {
    Clamp,
}
pub struct Window;
impl Window {
    pub fn get_keys(&self) -> Vec<Key> { unimplemented!() }
    pub fn get_mouse_down(&self, _: MouseButton) -> bool { unimplemented!() }
    pub fn get_mouse_pos(&self, _: MouseMode) -> Option<(f32, f32)> { unimplemented!() }
}
