//! The declarations of include/doorhawser.h. No proof ties them to crates/host: tests/twin.rs holds the layout, and `abi` has to be `ABI`.
use std::mem::size_of;

pub const ABI: u64 = 4;
pub const MEMORY: usize = 65536;
pub const RECORD: usize = 70;
pub const DEVICES: usize = 12;
pub const LINE: usize = 48;
pub const DUMP: usize = 65568;
pub const ENTRY: usize = 17;
pub const ENTRIES: usize = 32781;
pub const NO_STOP: u32 = 65536;
pub const RANGES: usize = 8;

#[repr(C)]
#[derive(Clone, Copy, Debug, PartialEq, Eq)]
pub struct Range {
    pub first: u16,
    pub last: u16,
}

#[repr(C)]
#[derive(Clone, Copy, Debug, PartialEq, Eq)]
pub struct Settings {
    pub ram_top: u16,
    pub flags: u8,
    pub spare: u8,
    pub profile: [Range; RANGES],
}

#[repr(C)]
#[derive(Clone, Copy, Debug, PartialEq, Eq)]
pub struct Twin {
    pub cycles: u64,
    pub instructions: u64,
    pub records: u64,
    pub bytes: u64,
    pub x: u16,
    pub y: u16,
    pub u: u16,
    pub s: u16,
    pub pc: u16,
    pub a: u8,
    pub b: u8,
    pub dp: u8,
    pub cc: u8,
    pub wait: u8,
    pub armed: u8,
}

#[repr(C)]
#[derive(Clone, Copy, Debug, PartialEq, Eq)]
pub struct Write {
    pub at: u16,
    pub byte: u8,
    pub system: u8,
}

#[repr(C)]
#[derive(Clone, Copy, Debug, PartialEq, Eq)]
pub struct Outcome {
    pub twin: Twin,
    pub devices: [Write; DEVICES],
    pub count: u64,
    pub reads: u64,
    pub writes: u64,
    pub answer: u64,
}

#[repr(C)]
#[derive(Clone, Copy, Debug, PartialEq, Eq)]
pub struct Ran {
    pub last: Outcome,
    pub left: u64,
}

#[repr(C)]
#[derive(Clone, Copy, Debug, PartialEq, Eq)]
pub struct Stopped {
    pub outcome: Outcome,
    pub reason: u64,
    pub number: u64,
}

#[repr(C)]
#[derive(Clone, Copy, Debug, PartialEq, Eq)]
pub struct Part {
    pub at: u64,
    pub count: u64,
}

#[repr(C)]
#[derive(Clone, Copy, Debug, PartialEq, Eq)]
pub struct Loaded {
    pub start: u64,
    pub answer: u64,
}

#[repr(C)]
#[derive(Clone, Copy, Debug, PartialEq, Eq)]
pub struct Written {
    pub count: u64,
    pub answer: u64,
}

#[repr(C)]
#[derive(Clone, Copy, Debug, PartialEq, Eq)]
pub struct Salvaged {
    pub bytes: u64,
    pub numbers: u64,
    pub added: u64,
    pub answer: u64,
}

#[repr(C)]
#[derive(Clone, Copy, Debug, PartialEq, Eq)]
pub struct Undumped {
    pub twin: Twin,
    pub answer: u64,
}

const _: () = assert!(size_of::<usize>() == 8 && size_of::<Range>() == 4 && size_of::<Settings>() == 36 && size_of::<Twin>() == 48 && size_of::<Write>() == 4);
const _: () = assert!(size_of::<Outcome>() == 128 && size_of::<Ran>() == 136 && size_of::<Stopped>() == 144);
const _: () = assert!(size_of::<Part>() == 16 && size_of::<Loaded>() == 16 && size_of::<Written>() == 16 && size_of::<Salvaged>() == 32);
const _: () = assert!(size_of::<Undumped>() == 56);

/// A recorded call that takes nothing but the twin and its settings.
pub type Recorded = unsafe extern "C" fn(*mut u8, usize, *mut u8, usize, Twin, Settings) -> Outcome;
/// The same, not recorded.
pub type Unrecorded = unsafe extern "C" fn(*mut u8, usize, Twin, Settings) -> Outcome;

#[link(name = "doorhawser", kind = "static")]
extern "C" {
    pub fn doorhawser_abi() -> u64;
    pub fn doorhawser_start() -> Twin;
    pub fn doorhawser_step(
        memory: *mut u8,
        memory_length: usize,
        journal: *mut u8,
        journal_length: usize,
        twin: Twin,
        settings: Settings,
    ) -> Outcome;
    pub fn doorhawser_interrupt(
        memory: *mut u8,
        memory_length: usize,
        journal: *mut u8,
        journal_length: usize,
        twin: Twin,
        settings: Settings,
        which: u8,
    ) -> Outcome;
    pub fn doorhawser_reset(
        memory: *mut u8,
        memory_length: usize,
        journal: *mut u8,
        journal_length: usize,
        twin: Twin,
        settings: Settings,
    ) -> Outcome;
    pub fn doorhawser_undo(memory: *mut u8, memory_length: usize, journal: *const u8, journal_length: usize, twin: Twin) -> Outcome;
    pub fn doorhawser_run(
        memory: *mut u8,
        memory_length: usize,
        journal: *mut u8,
        journal_length: usize,
        twin: Twin,
        settings: Settings,
        allowance: u64,
        stop: u32,
    ) -> Stopped;
    pub fn doorhawser_drop(journal: *mut u8, journal_length: usize, twin: Twin, k: u64) -> Outcome;
    pub fn doorhawser_step_unrecorded(memory: *mut u8, memory_length: usize, twin: Twin, settings: Settings) -> Outcome;
    pub fn doorhawser_interrupt_unrecorded(memory: *mut u8, memory_length: usize, twin: Twin, settings: Settings, which: u8) -> Outcome;
    pub fn doorhawser_reset_unrecorded(memory: *mut u8, memory_length: usize, twin: Twin, settings: Settings) -> Outcome;
    pub fn doorhawser_run_unrecorded(memory: *mut u8, memory_length: usize, twin: Twin, settings: Settings, count: u64) -> Ran;
    pub fn doorhawser_newest(journal: *const u8, journal_length: usize, records: u64, bytes: u64) -> Part;
    pub fn doorhawser_load(memory: *mut u8, memory_length: usize, text: *const u8, text_length: usize) -> Loaded;
    pub fn doorhawser_save(memory: *const u8, memory_length: usize, start: u16, out: *mut u8, out_length: usize) -> Written;
    pub fn doorhawser_salvage(
        text: *const u8,
        text_length: usize,
        out: *mut u8,
        out_length: usize,
        list: *mut u8,
        list_length: usize,
    ) -> Salvaged;
    pub fn doorhawser_disassemble(memory: *const u8, memory_length: usize, at: u16, line: *mut u8, line_length: usize) -> Written;
    pub fn doorhawser_dump(memory: *const u8, memory_length: usize, twin: Twin, out: *mut u8, out_length: usize) -> Written;
    pub fn doorhawser_undump(memory: *mut u8, memory_length: usize, dump: *const u8, dump_length: usize) -> Undumped;
    pub fn doorhawser_compare(
        left_memory: *const u8,
        left_length: usize,
        left: Twin,
        right_memory: *const u8,
        right_length: usize,
        right: Twin,
        list: *mut u8,
        list_length: usize,
    ) -> Written;
}
