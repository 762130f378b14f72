//! A second implementation of `depth`, written from `docs/RULES.md`, `docs/FORMAT.md` and `docs/REFUSALS.md` alone, and what it takes to compare it.

pub mod cases;
pub mod clock;
pub mod draft;
mod eights;
pub mod flat;
pub mod gen;
pub mod kit;
pub mod model;
pub mod pictures;
pub mod walk;

/// The bytes as lower-case hexadecimal digits.
pub fn hex(bytes: &[u8]) -> String {
    bytes.iter().map(|byte| format!("{byte:02x}")).collect()
}

/// What an output says, as far as its first word tells.
#[derive(Clone, Copy, Debug, PartialEq, Eq)]
pub enum Answer {
    Image,
    Refusal { part: u8, number: u8, place: u16 },
    Unknown,
}

/// Reads the first word of an output.
pub fn answer(output: &[u8]) -> Answer {
    match *output {
        [p0, p1, number, top] if top >> 4 == 14 => Answer::Refusal { part: top & 15, number, place: u16::from_le_bytes([p0, p1]) },
        [_, _, _, top, ..] if top >> 4 == 10 => Answer::Image,
        _ => Answer::Unknown,
    }
}

/// Whether two outputs differ in nothing but the probes of pixels.
pub fn alike_but_probes(a: &[u8], b: &[u8]) -> bool {
    let is_of_probes = |at: usize| at >= 8 && at % 4 < 2;
    a.len() == b.len() && a.iter().zip(b).enumerate().all(|(at, (a, b))| a == b || is_of_probes(at))
}

/// How many outputs were images, and how many were refusals of each number.
#[derive(Clone, Debug)]
pub struct Tally {
    pub images: u64,
    pub refusals: [u64; 256],
    pub unknown: u64,
}

impl Default for Tally {
    fn default() -> Self {
        Tally { images: 0, refusals: [0; 256], unknown: 0 }
    }
}

impl Tally {
    pub fn count(&mut self, output: &[u8]) {
        match answer(output) {
            Answer::Image => self.images += 1,
            Answer::Refusal { number, .. } => self.refusals[usize::from(number)] += 1,
            Answer::Unknown => self.unknown += 1,
        }
    }
}

impl std::fmt::Display for Tally {
    fn fmt(&self, f: &mut std::fmt::Formatter<'_>) -> std::fmt::Result {
        write!(f, "images {}", self.images)?;
        for (number, count) in self.refusals.iter().enumerate().filter(|(_, count)| **count > 0) {
            write!(f, "\nrefusal {number}: {count}")?;
        }
        if self.unknown > 0 {
            write!(f, "\nneither: {}", self.unknown)?;
        }
        Ok(())
    }
}
