//! An IBM PC 5150: its timer, interrupt controller and parallel port by themselves, whole runs, the programs pcboard and
//! pcprobe over texts, and sessions. [`raw`] has the calls of `zebludor.h` as they are; all else is safe. What a call does is told by that header.
//!
//! ```
//! let mut pit = zebludor_sys::Pit::new(zebludor_sys::Kind::I8253);
//! pit.set_gate(2, true);
//! for (port, value) in [(3, 0xB6), (2, 7), (2, 0)] {
//!     pit.write(port, value); // counter 2, both bytes, mode 3, count 7
//! }
//! println!("OUT changes after {:?} ticks", pit.until_change(2));
//! ```

pub mod raw;

mod chips;
mod programs;
mod session;

pub use chips::{Kind, Pic, Pit, Ppi};
pub use programs::{limit, pcboard, pcprobe, run, run_hex, Ended};
pub use session::{Refused, Session};

/// Why a source, a text of Intel HEX or a run file is refused: the number of the fault, and the refused line, if it has one.
#[derive(Clone, Copy, Debug, PartialEq, Eq)]
pub struct Fault {
    pub number: u8,
    pub line: Option<u64>,
}

impl std::fmt::Display for Fault {
    fn fmt(&self, to: &mut std::fmt::Formatter<'_>) -> std::fmt::Result {
        write!(to, "fault {}", self.number)?;
        self.line.map_or(Ok(()), |line| write!(to, " line {line}"))
    }
}

impl std::error::Error for Fault {}
