//! The bottler's firmware in both settings: the p99 that it computes, and the histogram that it computes it of.
//! `p99 FILE.s19`, with examples/exporter/bottler.s19.
use doorhawser::{Flags, Settings, Twin};

fn p99(text: &[u8], flags: Flags) -> Result<String, Box<dyn std::error::Error>> {
    let mut twin = Twin::new(Settings::new(0x7FFF, flags), 0);
    twin.load(text)?;
    twin.reset_unrecorded()?;
    let ran = twin.run(1_000_000); // up to SYNC, at which a step is refused
    let samples: u32 = (0x2000..0x2040).map(|at| u32::from(twin.peek(at))).sum();
    let stalls = twin.peek(0x2000 + 45);
    let p99 = twin.peek_word(0x2100);
    Ok(format!(
        "{:?}: p99 {} ms; {} of {} samples at 900 ms; {} steps, {} cycles, {:?}",
        flags,
        p99,
        stalls,
        samples,
        ran.steps,
        twin.cycles(),
        twin.wait()
    ))
}

fn main() -> Result<(), Box<dyn std::error::Error>> {
    let file = std::env::args().nth(1).ok_or("p99 FILE.s19")?;
    let text = std::fs::read(file)?;
    for flags in [Flags::Bought, Flags::Manual] {
        println!("{}", p99(&text, flags)?);
    }
    Ok(())
}
