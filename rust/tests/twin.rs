//! Expected values: document 01's worked input and checked examples, examples/README.md, and the S-records by hand.
use doorhawser::{raw, DeviceWrite, Difference, Flags, Interrupt, Reason, Refused, Registers, Salvaged, Settings, Twin, Wait};

fn twin(flags: Flags, records: usize) -> Twin {
    Twin::new(Settings::new(0x7FFF, flags), records)
}

fn put(t: &mut Twin, at: usize, bytes: &[u8]) {
    t.memory_mut()[at..at + bytes.len()].copy_from_slice(bytes);
}

fn line(t: &Twin) -> (u16, u8, u64) {
    (t.registers().pc, t.registers().cc, t.cycles())
}

#[test]
fn the_worked_input_and_back() {
    let mut t = twin(Flags::Bought, 932);
    put(&mut t, 0x1000, &[0x5F, 0x5A]);
    put(&mut t, 0xBFFE, &[0x10, 0x00]);
    let image = *t.memory();
    assert!(t.reset().unwrap().is_empty());
    assert_eq!(line(&t), (0x1000, 0x50, 0));
    t.step().unwrap();
    assert_eq!(line(&t), (0x1001, 0x54, 2));
    t.step().unwrap();
    assert_eq!(line(&t), (0x1002, 0x5A, 4));
    assert_eq!((t.records(), t.instructions()), (3, 2));
    assert_eq!((t.newest().unwrap().len(), t.journal_used()), (34, 102));
    t.undo().unwrap();
    assert_eq!(line(&t), (0x1001, 0x54, 2));
    t.undo().unwrap();
    t.undo().unwrap();
    assert_eq!((line(&t), t.records()), ((0, 0x50, 0), 0));
    assert_eq!(t.undo(), Err(Refused(11)));
    assert_eq!(t.newest(), None);
    assert!(*t.memory() == image);
}

// IRQ with S = 000C and 000B
#[test]
fn an_interrupt_stacks_twelve_bytes_or_is_refused() {
    let mut t = twin(Flags::Manual, 8);
    put(&mut t, 0x1006, &[0x12]);
    put(&mut t, 0xBFF8, &[0x10, 0x06]);
    let mut r = Registers { s: 0x000B, pc: 0x1234, cc: 0x40, ..t.registers() };
    t.set_registers(r);
    assert_eq!(t.interrupt(Interrupt::Irq), Err(Refused(8)));
    assert_eq!((t.registers(), t.records()), (r, 0));
    r.s = 0x000C;
    t.set_registers(r);
    t.interrupt(Interrupt::Irq).unwrap();
    assert_eq!((t.registers().pc, t.registers().s, t.registers().cc), (0x1006, 0, 0xD0));
    assert_eq!((t.peek(0), t.peek_word(0x000A)), (0xC0, 0x1234));
    t.undo().unwrap();
    assert_eq!(t.registers(), r);
    t.set_registers(Registers { s: 0x0100, ..r }); // the frame is not where the vector, 0000, leads
    assert!(t.interrupt(Interrupt::Nmi).unwrap().is_empty()); // held off: 9 is not judged
    assert_eq!((t.registers().pc, t.registers().s, t.armed()), (0x1234, 0x0100, false));
    t.set_armed(true);
    assert_eq!(t.interrupt(Interrupt::Nmi), Err(Refused(9)));
}

// LDS #1000 lets NMI in, its undo and a reset hold it off again
#[test]
fn nmi_is_held_off_until_s_is_loaded() {
    let mut t = twin(Flags::Manual, 8);
    put(&mut t, 0, &[0x10, 0xCE, 0x10, 0x00, 0x12]);
    put(&mut t, 0xBFFC, &[0x00, 0x04]);
    t.interrupt(Interrupt::Nmi).unwrap();
    assert_eq!((line(&t), t.registers().s, t.armed(), t.records()), ((0, 0x50, 0), 0, false, 1));
    t.step().unwrap();
    assert_eq!((line(&t), t.registers().s, t.armed()), ((4, 0x50, 4), 0x1000, true));
    assert_eq!(t.newest().unwrap()[15], 0);
    t.undo().unwrap();
    assert!(!t.armed());
    t.step().unwrap();
    t.interrupt(Interrupt::Nmi).unwrap();
    assert_eq!((line(&t), t.registers().s, t.armed()), ((4, 0xD0, 4), 0x0FF4, true));
    assert_eq!(t.newest().unwrap()[15], 1);
    t.reset().unwrap();
    assert!(!t.armed());
    t.undo().unwrap();
    assert!(t.armed());
}

// STA >2000 stores a byte, so its record has 37 bytes, and a NOP's has 34: in 140 bytes there is room for three NOPs more, and for a fourth
// once the oldest record is dropped
#[test]
fn the_oldest_calls_are_forgotten() {
    let mut t = twin(Flags::Manual, 2); // 140 bytes
    put(&mut t, 0, &[0xB7, 0x20, 0x00, 0x12, 0x12, 0x12]);
    t.set_registers(Registers { a: 0x5A, ..t.registers() });
    for _ in 0..4 {
        t.step().unwrap();
    }
    assert_eq!((t.records(), t.journal_used()), (4, 139));
    assert_eq!(t.newest().unwrap()[10..12], [0, 5]);
    put(&mut t, 6, &[0x12]);
    assert_eq!(t.step(), Err(Refused(10)));
    assert_eq!(t.forget(5), Err(Refused(26)));
    t.forget(0).unwrap();
    assert_eq!((t.records(), t.journal_used()), (4, 139));
    t.forget(1).unwrap();
    assert_eq!((t.records(), t.journal_used(), t.peek(0x2000)), (3, 102, 0x5A));
    t.step().unwrap();
    assert_eq!((t.records(), t.journal_used(), t.registers().pc), (4, 136, 7));
    for pc in [6, 5, 4, 3] {
        t.undo().unwrap();
        assert_eq!(t.registers().pc, pc);
    }
    assert_eq!((t.undo(), t.peek(0x2000)), (Err(Refused(11)), 0x5A));
}

#[test]
fn device_writes_are_handed_over() {
    let mut t = twin(Flags::Manual, 0);
    put(&mut t, 0, &[0x86, 0x5A, 0xB7, 0xFF, 0x02, 0x12, 0x13]); // LDA #5A, STA FF02, NOP, SYNC
    assert_eq!(t.step(), Err(Refused(10)));
    let ran = t.run(100);
    assert_eq!((ran.steps, &ran.devices[..], ran.refused), (2, &[DeviceWrite { at: 0xFF02, byte: 0x5A, system: false }][..], None));
    assert_eq!(t.memory()[0xFF02], 0);
    let ran = t.run(100);
    assert_eq!((ran.steps, ran.devices.len(), ran.refused), (2, 0, Some(Refused(2))));
    assert_eq!(t.wait(), Wait::Sync);
    assert!(t.interrupt_unrecorded(Interrupt::Irq).unwrap().is_empty()); // masked: it ends SYNC alone
    assert_eq!((t.wait(), t.registers().pc, t.records()), (Wait::Running, 7, 0));
    assert_eq!(t.run(0).steps, 0);
}

// LDA #5A, STA FF02, NOP, NOP, SYNC: five records of 34 bytes, and a sixth step that is refused by 2
#[test]
fn a_run_ends_for_the_first_reason() {
    let mut t = twin(Flags::Manual, 8);
    put(&mut t, 0, &[0x86, 0x5A, 0xB7, 0xFF, 0x02, 0x12, 0x12, 0x13]);
    let mut ran = |allowance, stop| {
        let r = t.run_recorded(allowance, stop);
        (r.reason, r.devices.len(), t.registers().pc, t.records())
    };
    assert_eq!(ran(0, None), (Reason::Allowance, 0, 0, 0));
    assert_eq!(ran(1, None), (Reason::Allowance, 0, 2, 1));
    assert_eq!(ran(1, None), (Reason::DeviceWrite, 1, 5, 2));
    assert_eq!(ran(9, Some(6)), (Reason::StopAddress, 0, 6, 3));
    assert_eq!(ran(1, Some(6)), (Reason::Allowance, 0, 7, 4));
    assert_eq!(ran(9, Some(8)), (Reason::Waits, 0, 8, 5));
    assert_eq!(ran(9, None), (Reason::StepRefused(Refused(2)), 0, 8, 5));
    for pc in [7, 6, 5, 2, 0] {
        t.undo().unwrap();
        assert_eq!(t.registers().pc, pc);
    }
    assert_eq!((t.undo(), t.wait()), (Err(Refused(11)), Wait::Running));
    assert_eq!(t.run_recorded(u64::MAX, Some(5)).reason, Reason::StopAddress); // before the device write, which is handed over too
    assert_eq!((t.registers().pc, t.records()), (5, 2));
}

// DEC 00: V as bought, not by the manual
#[test]
fn the_settings_part_at_dec_00() {
    for (flags, cc) in [(Flags::Bought, 0x5A), (Flags::Manual, 0x58)] {
        let mut t = twin(flags, 0);
        put(&mut t, 0, &[0x4A]);
        t.step_unrecorded().unwrap();
        assert_eq!(t.registers().cc, cc);
    }
}

#[test]
fn torn_files_are_salvaged() {
    let sound = b"S10510005F5A31\nS9031000EC\n";
    assert_eq!(doorhawser::salvage(sound), Salvaged { text: sound.to_vec(), dropped: vec![], added: false });
    // a bad checksum, a line after S9, and one that is cut
    let torn = b"S10510005F5A30\nS10510005F5A31\nS9031000EC\nS9030000FC\nS10";
    assert_eq!(doorhawser::salvage(torn), Salvaged { text: sound.to_vec(), dropped: vec![1, 4, 5], added: false });
    let cut = doorhawser::salvage(&sound[..20]);
    assert_eq!(cut, Salvaged { text: b"S10510005F5A31\nS9030000FC\n".to_vec(), dropped: vec![2], added: true });
    assert_eq!(doorhawser::salvage(b""), Salvaged { text: b"S9030000FC\n".to_vec(), dropped: vec![], added: true });
    assert_eq!(twin(Flags::Manual, 0).load(&cut.text), Ok(0));
    // as many lines as a file of its length can have
    assert_eq!(doorhawser::salvage(&[b'\n'; 999]).dropped, (1..=999).collect::<Vec<u64>>());
}

#[test]
fn records_are_read_and_written() {
    let text = b"S10510005F5A31\nS105BFFE10002D\nS9031000EC\n";
    let mut t = twin(Flags::Manual, 0);
    assert_eq!(t.load(text), Ok(0x1000));
    assert_eq!((t.peek_word(0x1000), t.peek_word(0xFFFE)), (0x5F5A, 0x1000));
    t.reset_unrecorded().unwrap();
    assert_eq!(t.registers().pc, 0x1000);
    let mut again = twin(Flags::Manual, 0);
    let image = *t.memory();
    assert_eq!(again.load(&t.save(0x1234)), Ok(0x1234));
    assert!(*again.memory() == image);
    put(&mut again, 0x4000, &[0xFF]);
    again.load(&t.save(0x1234)).unwrap();
    assert_eq!(again.peek(0x4000), 0xFF); // rows of zeros are not written
    assert_eq!(t.load(b"S10510005F5A30\n"), Err(Refused(21)));
    assert_eq!(t.load(b""), Err(Refused(23)));
    assert!(*t.memory() == image);
}

#[test]
fn an_instruction_is_disassembled() {
    let mut t = twin(Flags::Manual, 0);
    put(&mut t, 0x1000, &[0x6E, 0x9F, 0x21, 0x00, 0x87]); // JMP [2100], and no opcode
    assert_eq!(t.disassemble(0x1000), Ok(("1000  6E 9F 21 00     JMP   [$2100]".to_string(), 4)));
    assert_eq!(t.disassemble(0x1004), Err(Refused(3)));
    assert_eq!(t.disassemble(0xFFFF), Err(Refused(4)));
}

#[test]
fn dumps_go_there_and_back() {
    let mut t = twin(Flags::Manual, 4);
    put(&mut t, 0, &[0x86, 0x5A, 0x12]); // LDA #5A, NOP
    t.step().unwrap();
    let dump = t.dump();
    assert_eq!((dump.len(), dump[0], dump[11], dump[32], dump[34]), (65568, 0x5A, 2, 0x86, 0x12));
    let mut again = twin(Flags::Manual, 0);
    let before = again.dump();
    assert_eq!(again.undump(&dump[1..]), Err(Refused(16)));
    assert!(again.dump() == before);
    let d = |what, left, right| Difference { what, left, right };
    // A, PC, two cycles, an instruction, three bytes; CC stays 50
    assert_eq!(t.differences(&again), [d(0, 0x5A, 0), d(6, 2, 0), d(11, 2, 0), d(12, 1, 0), d(13, 0, 2)]);
    again.undump(&dump).unwrap();
    assert!(again.dump() == dump && t.differences(&again).is_empty());
    assert_eq!((again.records(), again.undo()), (0, Err(Refused(11))));
}

#[test]
fn words_wrap_at_the_top() {
    let mut t = twin(Flags::Manual, 0);
    put(&mut t, 0xBFFF, &[0xAB]);
    put(&mut t, 0, &[0xCD]);
    assert_eq!(t.peek_word(0xFFFF), 0xABCD);
}

#[test]
fn a_twin_is_sent_to_a_thread() {
    let mut t = twin(Flags::Manual, 4);
    put(&mut t, 0, &[0x12]);
    let t = std::thread::spawn(move || t.step().map(|_| t)).join().unwrap().unwrap();
    assert_eq!(t.registers().pc, 1);
}

// The layout of include/doorhawser.h: the offset of each field, and no gap.
#[test]
fn the_layout_is_the_headers() {
    macro_rules! at {
        ($value:expr, $($field:ident),+) => {{
            let v = &$value;
            vec![$((std::ptr::addr_of!(v.$field) as usize) - (v as *const _ as usize)),+]
        }};
    }
    let t = unsafe { raw::doorhawser_start() };
    let w = raw::Write { at: 0, byte: 0, system: 0 };
    let o = raw::Outcome { twin: t, devices: [w; 12], count: 0, reads: 0, writes: 0, answer: 0 };
    let none = [raw::Range { first: 0, last: 0 }; raw::RANGES];
    assert_eq!(at!(raw::Range { first: 0, last: 0 }, first, last), [0, 2]);
    assert_eq!(at!(raw::Settings { ram_top: 0, flags: 0, spare: 0, profile: none }, ram_top, flags, spare, profile), [0, 2, 3, 4]);
    let fields = at!(t, cycles, instructions, records, bytes, x, y, u, s, pc, a, b, dp, cc, wait, armed);
    assert_eq!(fields, [0, 8, 16, 24, 32, 34, 36, 38, 40, 42, 43, 44, 45, 46, 47]);
    assert_eq!(at!(w, at, byte, system), [0, 2, 3]);
    assert_eq!(at!(o, twin, devices, count, reads, writes, answer), [0, 48, 96, 104, 112, 120]);
    assert_eq!(at!(raw::Ran { last: o, left: 0 }, last, left), [0, 128]);
    assert_eq!(at!(raw::Stopped { outcome: o, reason: 0, number: 0 }, outcome, reason, number), [0, 128, 136]);
    assert_eq!(at!(raw::Part { at: 0, count: 0 }, at, count), [0, 8]);
    assert_eq!(at!(raw::Loaded { start: 0, answer: 0 }, start, answer), [0, 8]);
    assert_eq!(at!(raw::Written { count: 0, answer: 0 }, count, answer), [0, 8]);
    let s = raw::Salvaged { bytes: 0, numbers: 0, added: 0, answer: 0 };
    assert_eq!(at!(s, bytes, numbers, added, answer), [0, 8, 16, 24]);
}

// LDX #1234 has three program bytes; CLR 5000 three, and its operand, which it writes; PSHS of all two, and twelve writes.
#[test]
fn a_call_tells_what_it_read_and_wrote() {
    let mut twin = Twin::new(Settings::new(0x7FFF, Flags::Manual), 8);
    twin.memory_mut()[..8].copy_from_slice(&[0x8E, 0x12, 0x34, 0x7F, 0x50, 0x00, 0x34, 0xFF]);
    let told = |twin: &Twin| (twin.traffic().reads, twin.traffic().writes);
    twin.step().unwrap();
    assert_eq!(told(&twin), (3, 0));
    twin.step().unwrap();
    assert_eq!(told(&twin), (4, 1));
    assert!(twin.step().is_err(), "S is 0000");
    assert_eq!(told(&twin), (0, 0));
    let mut r = twin.registers();
    r.s = 0x4000;
    twin.set_registers(r);
    twin.step().unwrap();
    assert_eq!(told(&twin), (2, 12));
    twin.undo().unwrap();
    assert_eq!(told(&twin), (0, 0));
    twin.reset().unwrap();
    assert_eq!(told(&twin), (2, 0));
}
