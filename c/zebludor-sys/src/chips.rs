//! The chips, each in memory of its own: copied, compared and kept as one likes.
use crate::raw;

/// Which chip a timer is.
#[derive(Clone, Copy, Debug, PartialEq, Eq)]
pub enum Kind {
    I8253,
    I8254,
}

/// A timer. Counters and ports are taken modulo how many there are.
#[derive(Clone, Copy, Debug, PartialEq, Eq)]
pub struct Pit(pub raw::Pit);

impl Pit {
    /// One at power-on.
    pub fn new(kind: Kind) -> Pit {
        let mut pit = raw::Pit::default();
        unsafe { raw::zebludor_pit_power_on_as(&mut pit, (kind == Kind::I8254) as u8) };
        Pit(pit)
    }

    /// A byte of a counter, by its access and latches.
    pub fn read(&mut self, port: u8) -> u8 {
        unsafe { raw::zebludor_pit_read(&mut self.0, port) }
    }

    /// A byte of a count, or to port 3 a control word.
    pub fn write(&mut self, port: u8, value: u8) {
        unsafe { raw::zebludor_pit_write(&mut self.0, port, value) }
    }

    /// A gate takes a level.
    pub fn set_gate(&mut self, counter: u8, is_high: bool) {
        unsafe { raw::zebludor_pit_set_gate(&mut self.0, counter, is_high as u8) }
    }

    /// The level of an OUT.
    pub fn out(&self, counter: u8) -> bool {
        unsafe { raw::zebludor_pit_out(&self.0, counter) != 0 }
    }

    /// Ticks of the three counters; any number takes as long.
    pub fn advance(&mut self, ticks: u64) {
        unsafe { raw::zebludor_pit_advance(&mut self.0, ticks) }
    }

    /// After how many ticks an OUT first changes, as long as nothing is written; `None`: never.
    pub fn until_change(&self, counter: u8) -> Option<u64> {
        Some(unsafe { raw::zebludor_pit_until_change(&self.0, counter) }).filter(|&ticks| ticks != 0)
    }
}

/// An interrupt controller. Levels are taken modulo 8.
#[derive(Clone, Copy, Debug, PartialEq, Eq)]
pub struct Pic(pub raw::Pic);

impl Pic {
    /// One at power-on.
    pub fn new() -> Pic {
        let mut pic = raw::Pic::default();
        unsafe { raw::zebludor_pic_power_on(&mut pic) };
        Pic(pic)
    }

    /// A request line takes a level.
    pub fn set_line(&mut self, level: u8, is_high: bool) {
        unsafe { raw::zebludor_pic_set_line(&mut self.0, level, is_high as u8) }
    }

    /// A read at an address line A0.
    pub fn read(&mut self, a0: bool) -> u8 {
        unsafe { raw::zebludor_pic_read(&mut self.0, a0 as u8) }
    }

    /// A command word at an address line A0.
    pub fn write(&mut self, a0: bool, value: u8) {
        unsafe { raw::zebludor_pic_write(&mut self.0, a0 as u8, value) }
    }

    /// The interrupt output.
    pub fn request(&self) -> bool {
        unsafe { raw::zebludor_pic_request(&self.0) != 0 }
    }

    /// The interrupt acknowledge: the vector of the level that is taken, or of level 7.
    pub fn acknowledge(&mut self) -> u8 {
        unsafe { raw::zebludor_pic_acknowledge(&mut self.0) }
    }
}

impl Default for Pic {
    fn default() -> Pic {
        Pic::new()
    }
}

/// A parallel port, with the board's switches on its pins. Ports are taken modulo 4.
#[derive(Clone, Copy, Debug, PartialEq, Eq)]
pub struct Ppi(pub raw::Ppi);

impl Ppi {
    /// One at reset, with the switches of SW1 and SW2.
    pub fn new(sw1: u8, sw2: u8) -> Ppi {
        let mut ppi = raw::Ppi::default();
        unsafe { raw::zebludor_ppi_power_on(&mut ppi, sw1, sw2) };
        Ppi(ppi)
    }

    /// A read of a port, with the keyboard's latch and the level of the timer's OUT 2 on the pins.
    pub fn read(&self, port: u8, latch: u8, out2: bool) -> u8 {
        unsafe { raw::zebludor_ppi_read(&self.0, port, latch, out2 as u8) }
    }

    /// A byte to a port's latch, or to port 3 a control word.
    pub fn write(&mut self, port: u8, value: u8) {
        unsafe { raw::zebludor_ppi_write(&mut self.0, port, value) }
    }

    /// The levels of port B's eight lines.
    pub fn port_b(&self) -> u8 {
        unsafe { raw::zebludor_ppi_port_b(&self.0) }
    }
}
