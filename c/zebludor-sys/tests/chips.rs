//! The chips. Expected values were worked out by hand, as those of c/benches/chips.c.
use std::mem::size_of;
use zebludor_sys::{raw, Kind, Pic, Pit, Ppi};

#[test]
fn sizes() {
    assert_eq!((size_of::<raw::Counter>(), size_of::<raw::Pit>(), size_of::<raw::Pic>(), size_of::<raw::Ppi>()), (24, 72, 18, 9));
}

#[test]
fn turns_of_a_timer() {
    let mut pit = Pit::new(Kind::I8253);
    pit.set_gate(2, true);
    for (port, value) in [(3, 0xB6), (2, 7), (2, 0)] {
        pit.write(port, value); // counter 2, mode 3, count 7
    }
    let (mut turns, mut tick) = (Vec::new(), 0);
    while tick < 20 {
        let (leap, level) = (pit.until_change(2).unwrap(), pit.out(2));
        pit.advance(leap);
        assert_ne!(pit.out(2), level);
        tick += leap;
        turns.push(tick);
    }
    assert_eq!(turns, [5, 8, 12, 15, 19, 22]);
}

/// Counter 2 in mode 3 with the count 5, one byte: its status before the load, and its status and count after 4 ticks.
fn read_back(kind: Kind) -> [u8; 3] {
    let mut pit = Pit::new(kind);
    pit.set_gate(2, true);
    for (port, value) in [(3, 0x96), (2, 5), (3, 0xE8)] {
        pit.write(port, value);
    }
    let before = pit.read(2);
    pit.advance(4);
    pit.write(3, 0xC8);
    [before, pit.read(2), pit.read(2)]
}

#[test]
fn a_status_is_an_8254s() {
    assert_eq!(read_back(Kind::I8254), [0xD6, 0x16, 4]);
    assert_eq!(read_back(Kind::I8253), [0, 5, 5]); // each read gives the count
}

#[test]
fn an_interrupt_is_taken() {
    let mut pic = Pic::new();
    for (a0, value) in [(false, 0x13), (true, 0x20), (true, 1), (true, 0)] {
        pic.write(a0, value);
    }
    pic.set_line(3, true);
    assert!(pic.request());
    assert_eq!(pic.acknowledge(), 0x23);
    assert!(!pic.request());
}

#[test]
fn switches_are_read() {
    let mut ppi = Ppi::new(0x6D, 0x1A);
    ppi.write(3, 0x99); // A and C are inputs, B an output
    ppi.write(1, 4);
    assert_eq!(ppi.port_b(), 4);
    assert_eq!(ppi.read(2, 0, false) & 0x0F, 0x0A); // with bit 2 of port B the low nibble is that of SW2
}
