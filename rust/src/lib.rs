//! The proved MC6809 twin for Rust on x86-64 Linux.
//!
//! [`Twin`] owns its memory and its journal. So the buffers of a call cannot overlap, have the lengths that the call is told, and nobody
//! else writes them while it runs: what the head of `include/doorhawser.h` asks of a host in C holds here by itself. Numbers that the
//! library would refuse (wait, flags, interrupts) are enums.
//!
//! ```no_run
//! use doorhawser::{Flags, Settings, Twin};
//! let mut twin = Twin::new(Settings::new(0x7FFF, Flags::Manual), 932);
//! twin.load(b"S105BFFE10002D\nS10510005F5A31\nS9031000EC\n").unwrap();
//! twin.reset().unwrap();
//! twin.step().unwrap();
//! twin.undo().unwrap();
//! ```
#![deny(missing_docs)]

use std::fmt;
use std::ops::Deref;

#[allow(missing_docs)]
#[doc(hidden)]
pub mod raw;

/// Bytes of a twin's memory.
pub const MEMORY: usize = raw::MEMORY;
/// Bytes of the longest record, that of a call that stores twelve bytes; one that stores none has 34.
pub const RECORD: usize = raw::RECORD;

/// Whose rules set the flags.
#[derive(Clone, Copy, Debug, PartialEq, Eq, Hash)]
pub enum Flags {
    /// as the bought emulator sets them
    Bought = 0,
    /// by Motorola's manual
    Manual = 1,
}

/// What a twin waits for.
#[derive(Clone, Copy, Debug, PartialEq, Eq, Hash)]
pub enum Wait {
    /// it does not wait
    Running = 0,
    /// an interrupt that is not masked; the registers are stacked
    Cwai = 1,
    /// any interrupt
    Sync = 2,
}

/// An interrupt.
#[derive(Clone, Copy, Debug, PartialEq, Eq, Hash)]
pub enum Interrupt {
    /// masked by I
    Irq = 0,
    /// masked by F
    Firq = 1,
    /// never masked; held off from a reset until the program has loaded S
    Nmi = 2,
}

/// A range of places, both ends included; empty where `first` is above `last`.
#[derive(Clone, Copy, Debug, PartialEq, Eq, Hash)]
#[allow(missing_docs)]
pub struct Range {
    pub first: u16,
    pub last: u16,
}

/// The profile that allows all stores: 0000 to FFFF, then seven empty ranges.
pub const ALL_ALLOWED: [Range; 8] = {
    let mut profile = [Range { first: 1, last: 0 }; 8];
    profile[0] = Range { first: 0, last: 0xFFFF };
    profile
};

/// What a twin is run with.
#[derive(Clone, Copy, Debug, PartialEq, Eq, Hash)]
pub struct Settings {
    /// the last address that a program's writes reach
    pub ram_top: u16,
    /// whose rules set the flags
    pub flags: Flags,
    /// where a call may store; a call that would store at a place outside all of them is refused, with 28
    pub profile: [Range; 8],
}

impl Settings {
    /// With all stores allowed.
    pub fn new(ram_top: u16, flags: Flags) -> Settings {
        Settings { ram_top, flags, profile: ALL_ALLOWED }
    }

    fn raw(self) -> raw::Settings {
        let profile = self.profile.map(|r| raw::Range { first: r.first, last: r.last });
        raw::Settings { ram_top: self.ram_top, flags: self.flags as u8, spare: 0, profile }
    }
}

/// The registers. D is A and B.
#[derive(Clone, Copy, Debug, PartialEq, Eq, Hash)]
#[allow(missing_docs)]
pub struct Registers {
    pub x: u16,
    pub y: u16,
    pub u: u16,
    pub s: u16,
    pub pc: u16,
    pub a: u8,
    pub b: u8,
    pub dp: u8,
    pub cc: u8,
}

/// The number of a refusal, as README's table has it. The twin, its memory and its journal are then as they were.
#[derive(Clone, Copy, Debug, PartialEq, Eq, Hash)]
pub struct Refused(pub u64);

impl fmt::Display for Refused {
    fn fmt(&self, f: &mut fmt::Formatter) -> fmt::Result {
        write!(f, "refused with {}", self.0)
    }
}

impl std::error::Error for Refused {}

/// A byte that a call wrote to a device, at FF00-FF3F or FFC0-FFDF. It is not stored in memory.
#[derive(Clone, Copy, Debug, PartialEq, Eq, Hash)]
pub struct DeviceWrite {
    /// the address
    pub at: u16,
    /// the byte
    pub byte: u8,
    /// whether the processor itself stacked it, for an interrupt
    pub system: bool,
}

/// The device writes of a call, in their order: a slice of at most twelve.
#[derive(Clone, Copy, Debug, PartialEq, Eq)]
pub struct DeviceWrites {
    list: [DeviceWrite; raw::DEVICES],
    count: usize,
}

impl DeviceWrites {
    fn of(o: &raw::Outcome) -> DeviceWrites {
        let list = o.devices.map(|w| DeviceWrite { at: w.at, byte: w.byte, system: w.system != 0 });
        DeviceWrites { list, count: o.count as usize }
    }
}

impl Deref for DeviceWrites {
    type Target = [DeviceWrite];
    fn deref(&self) -> &[DeviceWrite] {
        &self.list[..self.count]
    }
}

/// How a run of steps ended.
#[derive(Clone, Copy, Debug, PartialEq, Eq)]
pub struct Ran {
    /// the steps that were accepted
    pub steps: u64,
    /// the device writes of the last one, where it was accepted
    pub devices: DeviceWrites,
    /// why the step after them was refused, where one was
    pub refused: Option<Refused>,
}

/// Why a run with an allowance ended, in the order in which it is tested.
#[derive(Clone, Copy, Debug, PartialEq, Eq, Hash)]
pub enum Reason {
    /// a step was refused
    StepRefused(Refused),
    /// the twin waits
    Waits,
    /// PC is at the stop address
    StopAddress,
    /// the last step wrote to a device
    DeviceWrite,
    /// as many steps were made as were allowed
    Allowance,
}

/// How many bytes of memory a call read and wrote, as its instruction is defined: no dead cycles, and writes to devices and above `ram_top`
/// too.
#[derive(Clone, Copy, Debug, Default, PartialEq, Eq)]
pub struct Traffic {
    /// bytes read
    pub reads: u64,
    /// bytes written
    pub writes: u64,
}

impl Traffic {
    fn of(o: &raw::Outcome) -> Traffic {
        Traffic { reads: o.reads, writes: o.writes }
    }
}

/// How a run with an allowance ended.
#[derive(Clone, Copy, Debug, PartialEq, Eq)]
pub struct Stopped {
    /// why
    pub reason: Reason,
    /// the device writes of the last step, where it was accepted
    pub devices: DeviceWrites,
}

/// What is sound of a torn S-record file.
#[derive(Clone, Debug, PartialEq, Eq)]
pub struct Salvaged {
    /// the lines that are kept, and S9 where none was left; it always loads
    pub text: Vec<u8>,
    /// the numbers of the lines that are dropped, counted from 1
    pub dropped: Vec<u64>,
    /// whether S9 was added
    pub added: bool,
}

/// Keeps what is sound of an S-record file: each line that [`Twin::load`] accepts, up to and with the first good S9. S9030000FC is added
/// where none is left. A file that loads comes back as it is.
pub fn salvage(text: &[u8]) -> Salvaged {
    let mut out = vec![0; text.len() + 11]; // the whole text, and S9
    let mut list = vec![0; 8 * text.len()]; // a line has at least one byte

    // Safety: the three buffers are apart and have their lengths; the text is only read.
    let s = unsafe { raw::doorhawser_salvage(text.as_ptr(), text.len(), out.as_mut_ptr(), out.len(), list.as_mut_ptr(), list.len()) };
    assert_eq!(s.answer, 0, "output and list are long enough");
    out.truncate(s.bytes as usize);
    list.truncate(8 * s.numbers as usize);
    let number = |bytes: &[u8]| u64::from_be_bytes(bytes.try_into().expect("eight bytes"));
    Salvaged { text: out, dropped: list.chunks(8).map(number).collect(), added: s.added != 0 }
}

/// A twin with its memory and its journal.
#[derive(Clone)]
pub struct Twin {
    memory: Box<[u8; MEMORY]>,
    journal: Vec<u8>,
    state: raw::Twin,
    traffic: Traffic,
    /// What the calls are made with. It may be changed between them.
    pub settings: Settings,
}

impl Twin {
    /// A twin with memory all zero, registers and counters as at power on (CC 50, the others 0), and a journal for so many calls,
    /// whatever they store: [`RECORD`] bytes for each, so that about twice as many calls that store nothing have room.
    pub fn new(settings: Settings, records: usize) -> Twin {
        // Safety: these two calls take nothing.
        let (abi, state) = unsafe { (raw::doorhawser_abi(), raw::doorhawser_start()) };
        assert_eq!(abi, raw::ABI, "the library is not the one that these declarations are of");
        let memory = vec![0; MEMORY].into_boxed_slice().try_into().expect("as many bytes");
        Twin { memory, journal: vec![0; records.checked_mul(RECORD).expect("a journal that can be")], state, traffic: Traffic::default(), settings }
    }

    /// What the last call read and wrote: nothing where it was refused, and nothing of an undo. Of [`Twin::run_recorded`] it is what all its
    /// steps did, of [`Twin::run`] what the last one did.
    pub fn traffic(&self) -> Traffic {
        self.traffic
    }

    /// The registers.
    pub fn registers(&self) -> Registers {
        let t = &self.state;
        Registers { x: t.x, y: t.y, u: t.u, s: t.s, pc: t.pc, a: t.a, b: t.b, dp: t.dp, cc: t.cc }
    }

    /// Sets the registers, and no mark for S. This is no call: undo brings back what the calls changed.
    pub fn set_registers(&mut self, r: Registers) {
        let Registers { x, y, u, s, pc, a, b, dp, cc } = r;
        self.state = raw::Twin { x, y, u, s, pc, a, b, dp, cc, ..self.state };
    }

    /// What it waits for.
    pub fn wait(&self) -> Wait {
        match self.state.wait {
            0 => Wait::Running,
            1 => Wait::Cwai,
            2 => Wait::Sync,
            n => unreachable!("the library handed back wait {}", n),
        }
    }

    /// Whether NMI is let in: the program has loaded S since the last reset.
    pub fn armed(&self) -> bool {
        self.state.armed != 0
    }

    /// Sets that mark. This is no call: undo brings back what the calls changed.
    pub fn set_armed(&mut self, armed: bool) {
        self.state.armed = armed as u8;
    }

    /// Cycles of all instructions so far.
    pub fn cycles(&self) -> u64 {
        self.state.cycles
    }

    /// Instructions so far.
    pub fn instructions(&self) -> u64 {
        self.state.instructions
    }

    /// Calls that can be taken back.
    pub fn records(&self) -> u64 {
        self.state.records
    }

    /// Bytes of the journal that their records use.
    pub fn journal_used(&self) -> u64 {
        self.state.bytes
    }

    /// Memory as it lies, FFE0-FFFF of the processor's addresses at BFE0-BFFF.
    pub fn memory(&self) -> &[u8; MEMORY] {
        &self.memory
    }

    /// Memory, to be changed. This is no call: undo brings back what the calls changed.
    pub fn memory_mut(&mut self) -> &mut [u8; MEMORY] {
        &mut self.memory
    }

    /// The byte that the processor reads at an address.
    pub fn peek(&self, at: u16) -> u8 {
        self.memory[if at >= 0xFFE0 { at - 0x4000 } else { at } as usize]
    }

    /// The word that the processor reads at an address, high byte first; after FFFF comes 0000.
    pub fn peek_word(&self, at: u16) -> u16 {
        u16::from_be_bytes([self.peek(at), self.peek(at.wrapping_add(1))])
    }

    fn ended(&mut self, o: raw::Outcome) -> Result<DeviceWrites, Refused> {
        self.state = o.twin;
        self.traffic = Traffic::of(&o);
        if o.answer == 0 {
            Ok(DeviceWrites::of(&o))
        } else {
            Err(Refused(o.answer))
        }
    }

    fn recorded(&mut self, call: raw::Recorded) -> Result<DeviceWrites, Refused> {
        // Safety: both pointers have the lengths of buffers that this twin owns apart, and it is borrowed for the call alone.
        let o = unsafe {
            call(self.memory.as_mut_ptr(), MEMORY, self.journal.as_mut_ptr(), self.journal.len(), self.state, self.settings.raw())
        };
        self.ended(o)
    }

    fn unrecorded(&mut self, call: raw::Unrecorded) -> Result<DeviceWrites, Refused> {
        // Safety: memory is the twin's own, with its length, and borrowed for the call alone.
        let o = unsafe { call(self.memory.as_mut_ptr(), MEMORY, self.state, self.settings.raw()) };
        self.ended(o)
    }

    /// One instruction, recorded.
    pub fn step(&mut self) -> Result<DeviceWrites, Refused> {
        self.recorded(raw::doorhawser_step)
    }

    /// A reset, recorded.
    pub fn reset(&mut self) -> Result<DeviceWrites, Refused> {
        self.recorded(raw::doorhawser_reset)
    }

    /// An interrupt, recorded. One that is masked, or an NMI that is held off, is accepted and does nothing but end SYNC.
    pub fn interrupt(&mut self, which: Interrupt) -> Result<DeviceWrites, Refused> {
        let (m, j, n) = (self.memory.as_mut_ptr(), self.journal.as_mut_ptr(), self.journal.len());
        // Safety: as in `recorded`.
        let o = unsafe { raw::doorhawser_interrupt(m, MEMORY, j, n, self.state, self.settings.raw(), which as u8) };
        self.ended(o)
    }

    /// At most so many instructions, recorded, until one is refused, the twin waits, PC is at the stop address or a device is written to. That
    /// is tested in this order after each; a run that starts at its stop address goes on.
    pub fn run_recorded(&mut self, allowance: u64, stop: Option<u16>) -> Stopped {
        let (m, j, n) = (self.memory.as_mut_ptr(), self.journal.as_mut_ptr(), self.journal.len());
        let stop = stop.map_or(raw::NO_STOP, u32::from);
        // Safety: as in `recorded`.
        let r = unsafe { raw::doorhawser_run(m, MEMORY, j, n, self.state, self.settings.raw(), allowance, stop) };
        self.state = r.outcome.twin;
        self.traffic = Traffic::of(&r.outcome);
        let reason = match r.reason {
            1 => Reason::StepRefused(Refused(r.number)),
            2 => Reason::Waits,
            3 => Reason::StopAddress,
            4 => Reason::DeviceWrite,
            _ => Reason::Allowance,
        };
        Stopped { reason, devices: DeviceWrites::of(&r.outcome) }
    }

    /// Takes the newest recorded call back: registers, wait, mark, counters and memory outside FF00-FFDF are as they stood before it, where no
    /// call that is not recorded came after it.
    pub fn undo(&mut self) -> Result<(), Refused> {
        // Safety: as in `recorded`.
        let o = unsafe { raw::doorhawser_undo(self.memory.as_mut_ptr(), MEMORY, self.journal.as_ptr(), self.journal.len(), self.state) };
        self.ended(o).map(|_| ())
    }

    /// Forgets the oldest so many recorded calls, and frees their room in the journal. Undo then reaches back to the oldest that is kept.
    pub fn forget(&mut self, calls: u64) -> Result<(), Refused> {
        // Safety: the journal is the twin's own, with its length, and borrowed for the call alone.
        let o = unsafe { raw::doorhawser_drop(self.journal.as_mut_ptr(), self.journal.len(), self.state, calls) };
        self.ended(o).map(|_| ())
    }

    /// One instruction, not recorded.
    pub fn step_unrecorded(&mut self) -> Result<DeviceWrites, Refused> {
        self.unrecorded(raw::doorhawser_step_unrecorded)
    }

    /// A reset, not recorded.
    pub fn reset_unrecorded(&mut self) -> Result<DeviceWrites, Refused> {
        self.unrecorded(raw::doorhawser_reset_unrecorded)
    }

    /// An interrupt, not recorded.
    pub fn interrupt_unrecorded(&mut self, which: Interrupt) -> Result<DeviceWrites, Refused> {
        // Safety: as in `unrecorded`.
        let o =
            unsafe { raw::doorhawser_interrupt_unrecorded(self.memory.as_mut_ptr(), MEMORY, self.state, self.settings.raw(), which as u8) };
        self.ended(o)
    }

    /// At most so many instructions, not recorded, up to and with the first that is refused or writes to a device.
    pub fn run(&mut self, count: u64) -> Ran {
        // Safety: as in `unrecorded`.
        let r = unsafe { raw::doorhawser_run_unrecorded(self.memory.as_mut_ptr(), MEMORY, self.state, self.settings.raw(), count) };
        let steps = r.last.twin.instructions.wrapping_sub(self.state.instructions);
        let devices = DeviceWrites::of(&r.last);
        Ran { steps, devices, refused: self.ended(r.last).err() }
    }

    /// The newest record, 34 to 70 bytes.
    pub fn newest(&self) -> Option<&[u8]> {
        // Safety: the journal is the twin's own, with its length; it is only read.
        let p = unsafe { raw::doorhawser_newest(self.journal.as_ptr(), self.journal.len(), self.state.records, self.state.bytes) };
        if p.count == 0 {
            None
        } else {
            Some(&self.journal[p.at as usize..][..p.count as usize])
        }
    }

    /// Reads S-records into memory, and gives the address of their S9 line.
    pub fn load(&mut self, text: &[u8]) -> Result<u16, Refused> {
        // Safety: the text is borrowed, so it is no part of the memory, which is borrowed to be written.
        let l = unsafe { raw::doorhawser_load(self.memory.as_mut_ptr(), MEMORY, text.as_ptr(), text.len()) };
        if l.answer == 0 {
            Ok(l.start as u16)
        } else {
            Err(Refused(l.answer))
        }
    }

    /// Memory as S-records, with a start address in the S9 line. Rows of zeros are left out: it reads back into a memory of zeros.
    pub fn save(&self, start: u16) -> Vec<u8> {
        let mut out = vec![0; 4 * MEMORY]; // more than the text of any memory
                                           // Safety: the output is a buffer of its own, with its length.
        let w = unsafe { raw::doorhawser_save(self.memory.as_ptr(), MEMORY, start, out.as_mut_ptr(), out.len()) };
        assert_eq!(w.answer, 0, "memory and output have their lengths");
        out.truncate(w.count as usize);
        out
    }

    /// The text of the instruction at an address, without the spaces at its end, and how many bytes the instruction has. docs/DISASSEMBLY.md
    /// has its columns.
    pub fn disassemble(&self, at: u16) -> Result<(String, u16), Refused> {
        let mut line = [b' '; raw::LINE];
        // Safety: the line is a buffer of its own, with its length; memory is only read.
        let w = unsafe { raw::doorhawser_disassemble(self.memory.as_ptr(), MEMORY, at, line.as_mut_ptr(), line.len()) };
        if w.answer == 0 {
            Ok((String::from_utf8_lossy(&line).trim_end().to_string(), w.count as u16))
        } else {
            Err(Refused(w.answer))
        }
    }

    /// The machine with its memory as a dump (docs/COMPARE.md).
    pub fn dump(&self) -> Vec<u8> {
        let mut out = vec![0; raw::DUMP];
        // Safety: the output is a buffer of its own, with its length.
        let w = unsafe { raw::doorhawser_dump(self.memory.as_ptr(), MEMORY, self.state, out.as_mut_ptr(), out.len()) };
        assert_eq!(w.answer, 0, "memory and output have their lengths");
        out
    }

    /// Takes machine and memory from a dump; no record is held then. A refused dump changes nothing.
    pub fn undump(&mut self, dump: &[u8]) -> Result<(), Refused> {
        // Safety: as in `load`.
        let u = unsafe { raw::doorhawser_undump(self.memory.as_mut_ptr(), MEMORY, dump.as_ptr(), dump.len()) };
        if u.answer == 0 {
            self.state = u.twin;
            Ok(())
        } else {
            Err(Refused(u.answer))
        }
    }

    /// What differs from another twin, in the order of the list: fields, then runs of memory.
    pub fn differences(&self, other: &Twin) -> Vec<Difference> {
        let mut list = vec![0; raw::ENTRY * raw::ENTRIES];
        // Safety: both memories are only read, and the list is a buffer of its own, with its length.
        let w = unsafe {
            raw::doorhawser_compare(
                self.memory.as_ptr(),
                MEMORY,
                self.state,
                other.memory.as_ptr(),
                MEMORY,
                other.state,
                list.as_mut_ptr(),
                list.len(),
            )
        };
        assert_eq!(w.answer, 0, "the list has room for every entry");
        list[..raw::ENTRY * w.count as usize].chunks(raw::ENTRY).map(Difference::of).collect()
    }
}

/// An entry of the list: 0 to 12 is a field in the record's order (A B X Y U S PC DP CC, wait, mark, cycles, instructions), with its value
/// on the left and on the right; 13 a run of memory, with its first and its last address.
#[derive(Clone, Copy, Debug, PartialEq, Eq, Hash)]
pub struct Difference {
    /// what differs
    pub what: u8,
    /// the left value, or the first address
    pub left: u64,
    /// the right value, or the last address
    pub right: u64,
}

impl Difference {
    fn of(entry: &[u8]) -> Self {
        let number = |at: usize| entry[at..at + 8].iter().fold(0, |n, b| n << 8 | u64::from(*b));
        Difference { what: entry[0], left: number(1), right: number(9) }
    }
}

impl fmt::Debug for Twin {
    fn fmt(&self, f: &mut fmt::Formatter) -> fmt::Result {
        f.debug_struct("Twin").field("state", &self.state).field("settings", &self.settings).finish_non_exhaustive()
    }
}
