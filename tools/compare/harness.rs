//! Answers cases with the bought Rust itself, so that our own program can be held to what it does and not to what we think it
//! does. README.md fixes the lines. `build` puts this file and core_stubs.rs beside the bought ones.

use std::io::{self, BufRead, BufReader, BufWriter, Write};
use std::panic::{self, AssertUnwindSafe};
use std::process::ExitCode;
use std::sync::{mpsc, Arc, Mutex, RwLock};

// hex.rs and pia.rs name these two crates; the few items that they take from them are at this root, from core_stubs.rs.
extern crate self as minifb;
extern crate self as regex;

#[macro_use]
#[allow(dead_code)]
mod core_stubs;
use core_stubs::*;

// A child module may read CCInfo's private fields and call Core's private methods: `build` appends `probe!(NAME);` to its copies of
// registers.rs and runtime.rs.
macro_rules! probe {
    (registers) => {
        pub mod probe {
            pub fn info(bit: super::CCBit) -> (u8, char, &'static str) {
                let info = bit.info();
                (info.mask, info.short, info.name)
            }
        }
    };
    (runtime) => {
        pub mod probe {
            use super::{instructions::Instance, registers::Set, Core, Error};

            pub fn process_addressing_mode(core: &Core, inst: &mut Instance, ctx: &mut Set) -> Result<(), Error> {
                core.process_addressing_mode(inst, ctx)
            }
        }
    };
}

#[allow(dead_code)]
mod core;
mod hex;
#[allow(dead_code)]
mod memory;
#[allow(dead_code)]
mod pia;
mod registers;
#[allow(dead_code)]
mod runtime;
mod u8oru16;

use self::core::{Core, InterruptType};
use instructions::{AddressingMode, Detail, Instance};
use memory::AccessType;
use registers::{reg_size, CCBit, CCBits, Name, Set};
use u8oru16::u8u16;

const FLAGS: [CCBit; 8] = [CCBit::C, CCBit::V, CCBit::Z, CCBit::N, CCBit::I, CCBit::H, CCBit::F, CCBit::E];
const REGISTERS: [Name; 10] =
    [Name::A, Name::B, Name::D, Name::X, Name::Y, Name::U, Name::S, Name::PC, Name::DP, Name::CC];
const ACCESSES: [AccessType; 5] =
    [AccessType::Program, AccessType::UserStack, AccessType::SystemStack, AccessType::Generic, AccessType::System];
const MODES: [AddressingMode; 6] = [
    AddressingMode::Inherent,
    AddressingMode::Immediate,
    AddressingMode::Direct,
    AddressingMode::Indexed,
    AddressingMode::Extended,
    AddressingMode::Relative,
];

/// An interrupt's type, counted as the Rust does.
fn interrupt_type(number: u16) -> Result<InterruptType, Malformed> {
    use InterruptType::*;
    match number {
        0 => Ok(Reset),
        1 => Ok(Nmi),
        2 => Ok(Firq),
        3 => Ok(Irq),
        4 => Ok(Swi),
        5 => Ok(Swi2),
        6 => Ok(Swi3),
        _ => Err("an interrupt above 6"),
    }
}

/// What is wrong with a line. A case outside the table is an error of whoever made it and gets no answer that could be compared.
type Malformed = &'static str;
/// The three words after the answer's number.
type Answer = Result<[u16; 3], Stop>;

/// Why a call that came back has no words.
enum Stop {
    Malformed(Malformed),
    /// The error that the Rust returned: `returned` knows which of them are refusals.
    Error(Error),
}
impl From<Malformed> for Stop {
    fn from(why: Malformed) -> Self { Stop::Malformed(why) }
}
impl From<Error> for Stop {
    fn from(error: Error) -> Self { Stop::Error(error) }
}

/// The words of a case, taken one after the other in the order of the table.
struct Words {
    words: [u16; 4],
    taken: usize,
}

impl Words {
    fn word(&mut self) -> u16 {
        self.taken += 1;
        self.words[self.taken - 1]
    }
    fn byte(&mut self) -> Result<u8, Malformed> { byte(self.word()) }
    fn truth(&mut self) -> Result<bool, Malformed> { truth(self.word()) }
    fn value(&mut self) -> Result<u8u16, Malformed> {
        let (size, number) = (self.word(), self.word());
        value(size, number)
    }
    fn cc(&mut self) -> Result<CCBits, Malformed> { Ok(CCBits { reg: self.byte()? }) }
    fn flag(&mut self) -> Result<CCBit, Malformed> {
        FLAGS.get(self.word() as usize).copied().ok_or("a flag above 7")
    }
    fn register(&mut self) -> Result<Name, Malformed> { register(self.word()) }
    fn set(&mut self) -> Set { seeded(self.word()) }
    /// What a line does not use is 0000: anything else there means that its maker and this table disagree.
    fn rest_is_zero(&self) -> bool { self.words[self.taken..].iter().all(|&word| word == 0) }
}

fn truth(number: u16) -> Result<bool, Malformed> {
    match number {
        0 => Ok(false),
        1 => Ok(true),
        _ => Err("a bool that is neither 0 nor 1"),
    }
}

fn value(size: u16, number: u16) -> Result<u8u16, Malformed> {
    match size {
        1 => Ok(u8u16::u8(byte(number)?)),
        2 => Ok(u8u16::u16(number)),
        _ => Err("a size that is neither 1 nor 2"),
    }
}

fn byte(number: u16) -> Result<u8, Malformed> { u8::try_from(number).map_err(|_| "a byte above FF") }

fn register(number: u16) -> Result<Name, Malformed> {
    REGISTERS.get(number as usize).copied().ok_or("a register above 9")
}

/// Each register gets a number of its own, so that a read of the wrong one shows.
fn seeded(n: u16) -> Set {
    let (a, b) = ((n % 256) as u8, (n / 256) as u8);
    Set {
        a,
        b,
        d: 256 * a as u16 + b as u16,
        x: n.wrapping_add(1),
        y: n.wrapping_add(2),
        u: n.wrapping_add(3),
        s: n.wrapping_add(4),
        pc: n.wrapping_add(5),
        dp: (n.wrapping_add(6) % 256) as u8,
        cc: CCBits { reg: (n.wrapping_add(7) % 256) as u8 },
    }
}

/// The registers of 43. Factors of the seed, the last two operand bytes and PC, and what is added: their parities are such that any
/// two of D, X, Y, U, S, PC and DP with CC take every pair of values.
fn mixed(seed: u16, rest: u16, pc: u16) -> Set {
    let mix = |of_seed: u16, of_rest: u16, of_pc: u16, more: u16| {
        [(of_seed, seed), (of_rest, rest), (of_pc, pc)]
            .iter()
            .fold(more, |sum, (factor, word)| sum.wrapping_add(word.wrapping_mul(*factor)))
    };
    let d = mix(0, 0x2C4B, 0x1A36, 0x9E37);
    let [a, b] = d.to_be_bytes();
    let [dp, cc] = mix(0x1E6A, 0x0D73, 0x35BF, 0x6A09).to_be_bytes();
    Set {
        a,
        b,
        d,
        x: mix(0x1D2B, 0x0E52, 0x3A8E, 0x51C1),
        y: mix(0x25A7, 0x1F3A, 0x0B6D, 0xC2B2),
        u: mix(0x3163, 0x2D59, 0x17C2, 0x27D4),
        s: mix(0x0F95, 0x3B47, 0x26E1, 0xE913),
        pc,
        dp,
        cc: CCBits { reg: cc },
    }
}

fn sized(v: u8u16) -> [u16; 3] { flagged((v, false)) }

/// The enum is taken apart by hand: `size` and `u16` are themselves among the functions compared.
fn flagged((v, flag): (u8u16, bool)) -> [u16; 3] {
    match v {
        u8u16::u8(b) => [1, b as u16, flag as u16],
        u8u16::u16(n) => [2, n, flag as u16],
    }
}

fn single(n: impl Into<u16>) -> Answer { Ok([n.into(), 0, 0]) }

/// The bytes of a name are asked for one by one: a word holds no text.
fn letter(name: &str, index: u16) -> u16 { name.as_bytes().get(index as usize).copied().unwrap_or(0) as u16 }

fn on_byte(w: &mut Words, f: fn(&mut CCBits, u8) -> u8) -> Answer {
    let (mut cc, a) = (w.cc()?, w.byte()?);
    Ok([f(&mut cc, a) as u16, cc.reg as u16, 0])
}

fn on_bytes<R: Into<u16>>(w: &mut Words, f: fn(&mut CCBits, u8, u8) -> R) -> Answer {
    let (mut cc, a, b) = (w.cc()?, w.byte()?, w.byte()?);
    Ok([f(&mut cc, a, b).into(), cc.reg as u16, 0])
}

fn on_bytes_with_carry(w: &mut Words, f: fn(&mut CCBits, u8, u8, bool) -> u8) -> Answer {
    let (mut cc, a, b, carry) = (w.cc()?, w.byte()?, w.byte()?, w.truth()?);
    Ok([f(&mut cc, a, b, carry) as u16, cc.reg as u16, 0])
}

fn on_words(w: &mut Words, f: fn(&mut CCBits, u16, u16) -> u16) -> Answer {
    let (mut cc, a, b) = (w.cc()?, w.word(), w.word());
    Ok([f(&mut cc, a, b), cc.reg as u16, 0])
}

fn changed(w: &mut Words, f: impl Fn(&mut CCBits, &mut Words) -> Result<(), Malformed>) -> Answer {
    let mut cc = w.cc()?;
    f(&mut cc, w)?;
    single(cc.reg)
}

/// The bought processor with its memory, for 40 to 47. One serves all cases, since to lay out 65,536 bytes takes longer than to
/// answer: `settle` puts back what a case has changed.
struct Bench {
    core: Core,
    /// The instruction of 43. It stands here so that after a panic it tells how far the Rust had come.
    inst: Instance,
    /// The pattern and its digest, so that a digest has only to look at what changed.
    unchanged: (Vec<u8>, u32),
}

/// What the memory holds at a place when a case starts.
fn pattern(place: u16) -> u8 {
    let place = place as u32;
    ((167 * place + 59 * (place / 256) + 13) % 256) as u8
}

/// Where the map has an address, apart from FF00-FFDF.
fn place(address: u16) -> u16 { if address >= 0xFFE0 { address - 0x4000 } else { address } }

/// What bytes add to a digest in which `after` bytes follow: each counts FACTOR times as much as the next. FACTOR is odd, and no two
/// of its powers within a digest are equal: a change of one byte shows, and so does an exchange of two.
fn share(bytes: &[u8], after: usize) -> u32 {
    const FACTOR: u32 = 0x0100_0193;
    let own = bytes.iter().fold(0u32, |sum, &byte| sum.wrapping_mul(FACTOR).wrapping_add(byte as u32));
    own.wrapping_mul(FACTOR.wrapping_pow(after as u32))
}

/// A word, and a digest in two more.
fn digested(word: u16, digest: u32) -> Answer { Ok([word, (digest >> 16) as u16, digest as u16]) }

impl Bench {
    fn new() -> Self {
        let bytes: Vec<u8> = (0..=0xFFFF).map(pattern).collect();
        let ram = Arc::new(RwLock::new(bytes.clone()));
        let pia1 = Arc::new(Mutex::new(pia::Pia1::new(mpsc::channel().0)));
        let pia0 = Arc::new(Mutex::new(pia::Pia0::new(pia1.clone())));
        let (sam, vdg) = (Arc::new(Mutex::new(sam::Sam)), Arc::new(Mutex::new(vdg::Vdg)));
        let core = Core::new(ram, sam, vdg, pia0, pia1, 0xFFFF, None);
        let digest = share(&bytes, 0);
        Bench { inst: Instance::new(&core.reg, None), core, unchanged: (bytes, digest) }
    }
    /// The machine of 44 to 47: a seed's registers, and a ram_top that System writes must not look at.
    fn set_up(&mut self, seed: u16) {
        self.core.reg = seeded(seed);
        self.core.ram_top = seed;
        (self.core.in_cwai, self.core.in_sync) = (false, false);
    }
    /// Puts a word at a vector, logged as `lay_out` does it.
    fn point(&mut self, vector: u16, to: u16) {
        for (address, byte) in (vector..=vector + 1).zip(to.to_be_bytes()) {
            self.core.debug_check_for_watch_hit(address);
            self.core.raw_ram[place(address) as usize] = byte;
        }
    }
    /// What 45 and 46 show of the machine afterwards, three words of it at a time.
    fn view(&self, number: u16) -> Answer {
        let reg = &self.core.reg;
        let stacked = |k: u16| reg.s.checked_add(k).map_or(0, |address| self.raw(address));
        match number {
            0 => Ok([reg.pc, reg.s, reg.cc.reg as u16]),
            1 => Ok([stacked(0), stacked(2), stacked(4)]),
            2 => Ok([stacked(6), stacked(8), stacked(10)]),
            3 => Ok([others(reg), self.short_digest(), self.core.in_cwai as u16]),
            _ => Err("a view above 3".into()),
        }
    }
    /// The whole memory's digest.
    fn digest(&self) -> u32 {
        const PART: usize = 256;
        let (bytes, digest) = &self.unchanged;
        let parts = self.core.raw_ram.chunks(PART).zip(bytes.chunks(PART)).enumerate();
        parts.filter(|(_, (now, before))| now != before).fold(*digest, |sum, (i, (now, before))| {
            let after = 0x10000 - PART * (i + 1);
            sum.wrapping_add(share(now, after)).wrapping_sub(share(before, after))
        })
    }
    /// Both halves of it in one word.
    fn short_digest(&self) -> u16 {
        let digest = self.digest();
        (digest >> 16) as u16 ^ digest as u16
    }
    /// An instruction's size, every register, and the memory. D is among them: the Rust stores it beside A and B.
    fn machine_digest(&self, size: u16, reg: &Set) -> u32 {
        let words = |words: &[u16]| words.iter().flat_map(|word| word.to_be_bytes()).collect::<Vec<u8>>();
        let first = [
            words(&[size]),
            vec![reg.a, reg.b],
            words(&[reg.d, reg.x, reg.y, reg.u, reg.s, reg.pc]),
            vec![reg.dp, reg.cc.reg],
        ];
        share(&first.concat(), 0x10000).wrapping_add(self.digest())
    }
    /// Two bytes of the memory itself, where the map has an address and the next.
    fn raw(&self, address: u16) -> u16 {
        let byte = |address| self.core.raw_ram[place(address) as usize];
        u16::from_be_bytes([byte(address), address.checked_add(1).map_or(0, byte)])
    }
    /// Logs the instruction's bytes as accesses, to be judged and put back as the others are, and puts its operand there.
    fn lay_out(&mut self, pc: u16, opcode_size: u16, operand: [u8; 3]) {
        let bytes = std::iter::repeat(None).take(opcode_size as usize).chain(operand.map(Some));
        for (address, byte) in (pc..=0xFFFF).zip(bytes) {
            self.core.debug_check_for_watch_hit(address);
            if let Some(byte) = byte {
                self.core.raw_ram[place(address) as usize] = byte;
            }
        }
    }
    /// Makes the memory the pattern again, and tells whether the case stayed off FF00-FFDF.
    fn settle(&mut self) -> bool {
        let log = self.core.watch_hits.get_mut();
        for &address in log.iter() {
            for place in [address, place(address)] {
                self.core.raw_ram[place as usize] = pattern(place);
            }
        }
        let inside = !log.iter().any(|address| (0xFF00..=0xFFDF).contains(address));
        log.clear();
        inside
    }
    /// A byte that changed without an access in the log would have made every later answer doubtful.
    fn is_settled(&self) -> bool { (0..=0xFFFF).all(|place| self.core.raw_ram[place as usize] == pattern(place)) }
}

/// The registers that an interrupt leaves alone. D is among them: the Rust stores it beside A and B.
fn others(reg: &Set) -> u16 {
    let d = reg.get_register(Name::D).u16();
    [(1u16, reg.a as u16), (3, reg.b as u16), (5, reg.dp as u16), (7, reg.x), (9, reg.y), (11, reg.u), (13, d)]
        .iter()
        .fold(0u16, |sum, (factor, register)| sum.wrapping_add(register.wrapping_mul(*factor)))
}

/// System pushes, frames, interrupts and reset.
fn call_system(function: u16, w: &mut Words, bench: &mut Bench) -> Answer {
    match function {
        0x44 => {
            let (name, s, seed) = (w.register()?, w.word(), w.word());
            bench.set_up(seed);
            bench.core.reg.s = s;
            bench.core.system_psh(name)?;
            let s = bench.core.reg.s;
            Ok([s, bench.raw(s), bench.short_digest()])
        }
        0x45 => {
            let (kind, s, seed) = (w.word(), w.word(), w.word());
            let entire = truth(kind / 16)?;
            bench.set_up(seed);
            bench.core.reg.s = s;
            bench.core.stack_for_interrupt(entire)?;
            bench.view(kind % 16)
        }
        0x46 => {
            let (kind, s, seed, to) = (w.word(), w.word(), w.word(), w.word());
            let (in_cwai, interrupt) = (truth(kind / 256)?, interrupt_type(kind / 16 % 16)?);
            bench.set_up(seed);
            bench.core.reg.s = s;
            bench.core.in_cwai = in_cwai;
            // The Rust's callers look at the masks, ours looks at them in the call.
            match interrupt {
                InterruptType::Irq => bench.core.reg.cc.reg &= !0x10,
                InterruptType::Firq => bench.core.reg.cc.reg &= !0x40,
                _ => (),
            }
            bench.point(interrupt.vector(), to);
            bench.core.start_interrupt(interrupt)?;
            bench.view(kind % 16)
        }
        _ => {
            let (read, to, seed) = (w.register()?, w.word(), w.word());
            bench.set_up(seed);
            bench.point(InterruptType::Reset.vector(), to);
            bench.core.reset()?;
            let [size, number, _] = sized(bench.core.reg.get_register(read));
            Ok([size, number, bench.short_digest()])
        }
    }
}

/// The call that a case asks for. A panic of the Rust passes through: `panicked` knows which of them are refusals.
fn call(function: u16, w: &mut Words, bench: &mut Bench) -> Answer {
    match function {
        0x00 => {
            let (lsb, wide, msb) = (w.byte()?, w.truth()?, w.byte()?);
            Ok(sized(u8u16::new(lsb, wide.then_some(msb))))
        }
        0x01 => single(w.value()?.size()),
        0x02 => Ok(sized(u8u16::from_u16_shrink(w.word()))),
        0x03 => single(w.value()?.is_u8()),
        0x04 => single(w.value()?.u16()),
        0x05 => single(w.value()?.u8()),
        0x06 => single(w.value()?.lsb()),
        0x07 => Ok(w.value()?.msb().map_or([0, 0, 0], |high| [1, high as u16, 0])),
        0x08 => {
            let (v, length, fill) = (w.value()?, w.word() as usize, w.byte()?);
            let mut bytes = [0; 4];
            let buffer = bytes.get_mut(..length).ok_or("a buffer of more than 4 bytes")?;
            buffer.fill(fill);
            let count = v.get_as_bytes(buffer) as u16;
            Ok([count, u16::from_be_bytes([bytes[0], bytes[1]]), u16::from_be_bytes([bytes[2], bytes[3]])])
        }
        0x09 => single(w.value()?.i16() as u16),
        0x0A => Ok(sized(w.value()?.twos_complement())),
        0x0B => Ok(flagged(w.value()?.overflowing_negate())),
        0x0C => {
            let (v, negative) = (w.value()?, w.truth()?);
            Ok(flagged(v.force_signed(negative)))
        }
        0x0D => Ok(sized(w.value()?.sign_extended())),
        0x0E..=0x10 => {
            let (left, right) = (w.value()?, w.value()?);
            Ok(sized(match function {
                0x0E => left.signed_offset(right),
                0x0F => left.div(right),
                _ => left.modulo(right),
            }))
        }
        0x20 => {
            let (bit, index) = (w.flag()?, w.word());
            let (mask, short, name) = registers::probe::info(bit);
            Ok([mask as u16, short as u16, letter(name, index)])
        }
        0x21 => changed(w, |cc, w| Ok(cc.set(w.flag()?, w.truth()?))),
        0x22 => {
            let (cc, bit) = (w.cc()?, w.flag()?);
            single(cc.is_set(bit))
        }
        0x23 => changed(w, |cc, w| Ok(cc.set_from_byte(w.byte()?))),
        0x24 => changed(w, |cc, w| Ok(cc.or_with_byte(w.byte()?))),
        0x25 => single(w.cc()?.get_as_byte()),
        0x26 => changed(w, |cc, _| Ok(cc.reset())),
        0x27 => on_bytes_with_carry(w, CCBits::add_u8),
        0x28 => on_words(w, CCBits::add_u16),
        0x29 => on_bytes_with_carry(w, CCBits::sub_u8),
        0x2A => on_words(w, CCBits::sub_u16),
        0x2B => on_byte(w, CCBits::dec_u8),
        0x2C => on_byte(w, CCBits::inc_u8),
        0x2D => on_bytes(w, CCBits::and_u8),
        0x2E => on_words(w, CCBits::and_u16),
        0x2F => on_bytes(w, CCBits::or_u8),
        0x30 => on_bytes(w, CCBits::xor_u8),
        0x31 => on_byte(w, CCBits::com_u8),
        0x32 => on_byte(w, CCBits::neg_u8),
        0x33 => on_bytes(w, |cc, a, b| {
            cc.cmp_u8(a, b);
            0u16
        }),
        0x34 => on_words(w, |cc, a, b| {
            cc.cmp_u16(a, b);
            0
        }),
        0x35 => on_byte(w, CCBits::shl_u8),
        0x36 => {
            let (mut cc, a, keep) = (w.cc()?, w.byte()?, w.truth()?);
            Ok([cc.shr_u8(a, keep) as u16, cc.reg as u16, 0])
        }
        0x37 => on_byte(w, CCBits::rol_u8),
        0x38 => on_byte(w, CCBits::ror_u8),
        0x39 => on_bytes(w, CCBits::mul),
        0x3A => single(reg_size(w.register()?)),
        0x3B => {
            let (name, index) = (w.register()?, w.word());
            single(letter(name.to_str(), index))
        }
        0x3C => {
            let (read, mut set) = (w.register()?, w.set());
            set.reset();
            Ok(sized(set.get_register(read)))
        }
        0x3D => {
            let (both, v, mut set) = (w.word(), w.value()?, w.set());
            let (written, read) = (register(both / 16)?, register(both % 16)?);
            set.set_register(written, v);
            Ok(sized(set.get_register(read)))
        }
        0x40 => single(bench.core._read_u8(AccessType::Program, w.word(), None)?),
        0x41 => single(bench.core._read_u16(AccessType::Program, w.word(), None)?),
        0x42 => {
            let (ram_top, address, number, kind) = (w.word(), w.word(), w.word(), w.word());
            let access = *ACCESSES.get(kind as usize / 16).ok_or("an access above 4")?;
            let data = value(kind % 16, number)?;
            bench.core.ram_top = ram_top;
            bench.core._write_u8u16(access, address, data)?;
            digested(bench.raw(address), bench.digest())
        }
        0x43 => {
            let (first, pc, rest, seed) = (w.word(), w.word(), w.word(), w.word());
            let mode = *MODES.get(first as usize / 4096).ok_or("a mode above 5")?;
            let (wide, long) = (first & 2048 != 0, first & 1024 != 0);
            if wide && !matches!(mode, AddressingMode::Immediate | AddressingMode::Relative) {
                return Err("a wide operand in a mode that has none".into());
            }
            let opcode_size = 1 + long as u16;
            let [second, third] = rest.to_be_bytes();
            bench.lay_out(pc, opcode_size, [byte(first % 1024)?, second, third]);
            let mut ctx = mixed(seed, rest, pc);
            let Bench { core, inst, .. } = bench;
            core.reg = ctx;
            *inst = Instance::new(&ctx, None);
            (inst.size, inst.opsize) = (opcode_size, opcode_size);
            inst.flavor.mode = mode;
            // The Rust takes the operand's width from here for immediate and relative, and looks at it for no other mode.
            inst.flavor.detail = Detail { sz: opcode_size + 1 + wide as u16, clk: 0 };
            runtime::probe::process_addressing_mode(core, inst, &mut ctx)?;
            // Where it has tested the next address, PC goes there: ours does both in one call, the Rust's caller does it next.
            if mode == AddressingMode::Relative {
                ctx.pc += inst.size;
            }
            digested(bench.inst.ea, bench.machine_digest(bench.inst.size, &ctx))
        }
        0x44..=0x47 => call_system(function, w, bench),
        _ => Err("a function that the table does not have".into()),
    }
}

/// Document 01's number for an error that it makes a refusal.
fn returned(function: u16, error: &Error) -> Option<u16> {
    match error.kind {
        ErrorKind::Syntax if function == 0x43 => Some(5),
        ErrorKind::Runtime if function == 0x43 && error.msg.starts_with("Instruction overflow") => Some(4),
        ErrorKind::Runtime if matches!(function, 0x44..=0x46) && error.msg == "interal_push stack overflow" => Some(8),
        _ => None,
    }
}

/// Document 01's number for a panic that it makes a refusal. Function and message both have to fit: a panic of this program, or
/// one that document 01 does not know, is not to pass for a refusal.
fn panicked(function: u16, message: &str, inst: &Instance) -> Option<u16> {
    match function {
        0x0F if message == "attempt to divide by zero" => Some(13),
        0x10 if message == "attempt to calculate the remainder with a divisor of zero" => Some(13),
        0x0E if message == "assertion failed: !self.is_u8()" => Some(14),
        0x08 if message.starts_with("index out of bounds") => Some(15),
        0x46 if message.ends_with("vector points to zero instruction") => Some(9),
        // The Rust follows a pointer only once it has the pointer's address: before that it was at the instruction's own bytes. A
        // pointer at FFFF is outside the comparison.
        0x43 if message == "attempt to add with overflow" => {
            (inst.flavor.mode != AddressingMode::Indexed || inst.ea != 0xFFFF).then_some(4)
        }
        _ => None,
    }
}

/// Capitals alone: a line has one spelling, so that the two programs cannot differ in what they let pass.
fn hexadecimal(text: &[u8]) -> Option<u16> {
    text.iter().try_fold(0, |n, &digit| match digit {
        b'0'..=b'9' => Some(n << 4 | (digit - b'0') as u16),
        b'A'..=b'F' => Some(n << 4 | (digit - b'A' + 10) as u16),
        _ => None,
    })
}

fn parse(line: &[u8]) -> Option<(u16, Words)> {
    if line.len() != 23 || line[22] != b'\n' {
        return None;
    }
    let mut words = [0; 4];
    for (word, text) in words.iter_mut().zip(line[2..22].chunks(5)) {
        if text[0] != b' ' {
            return None;
        }
        *word = hexadecimal(&text[1..])?;
    }
    Some((hexadecimal(&line[..2])?, Words { words, taken: 0 }))
}

fn respond(line: &[u8], bench: &mut Bench) -> Result<[u16; 4], String> {
    let (function, mut words) = parse(line).ok_or("not a case's shape")?;
    let outcome = panic::catch_unwind(AssertUnwindSafe(|| call(function, &mut words, bench)));
    if !bench.settle() {
        return Err("an access at FF00-FFDF, outside the comparison".into());
    }
    let (number, why) = match outcome {
        Ok(Ok(_)) if !words.rest_is_zero() => return Err("a word that the function does not use is not 0000".into()),
        Ok(Ok([a, b, c])) => return Ok([0, a, b, c]),
        Ok(Err(Stop::Malformed(why))) => return Err(why.into()),
        Ok(Err(Stop::Error(error))) => (returned(function, &error), format!("error: {error}")),
        Err(payload) => {
            let message = match (payload.downcast_ref::<&str>(), payload.downcast_ref::<String>()) {
                (Some(text), _) => text,
                (_, Some(text)) => text.as_str(),
                _ => "with no message",
            };
            (panicked(function, message, &bench.inst), format!("panic: {message}"))
        }
    };
    number.map(|number| [number, 0, 0, 0]).ok_or(why)
}

/// Written by hand: `write!` in a debug build takes longer than the calls themselves.
fn print(out: &mut impl Write, words: [u16; 4]) -> io::Result<()> {
    let mut line = *b"0000 0000 0000 0000\n";
    for (word, text) in words.into_iter().zip(line.chunks_mut(5)) {
        for (place, digit) in text[..4].iter_mut().enumerate() {
            *digit = b"0123456789ABCDEF"[(word >> (12 - 4 * place) & 15) as usize];
        }
    }
    out.write_all(&line)
}

fn run() -> Result<(), String> {
    let mut input = BufReader::with_capacity(1 << 20, io::stdin().lock());
    let mut out = BufWriter::with_capacity(1 << 20, io::stdout().lock());
    let (mut line, mut number) = (Vec::with_capacity(32), 0u64);
    let mut bench = Bench::new();
    loop {
        line.clear();
        if input.read_until(b'\n', &mut line).map_err(|e| e.to_string())? == 0 {
            out.flush().map_err(|e| e.to_string())?;
            return if bench.is_settled() { Ok(()) } else { Err("a case changed memory that it did not access".into()) };
        }
        number += 1;
        let words = respond(&line, &mut bench)
            .map_err(|why| format!("line {number}: {}: {why}", String::from_utf8_lossy(&line).trim_end()))?;
        print(&mut out, words).map_err(|e| e.to_string())?;
    }
}

fn main() -> ExitCode {
    // Refusals come by the thousand; what they say is in the payload that `respond` reads.
    panic::set_hook(Box::new(|_| {}));
    match run() {
        Ok(()) => ExitCode::SUCCESS,
        Err(why) => {
            eprintln!("harness: {why}");
            ExitCode::FAILURE
        }
    }
}
