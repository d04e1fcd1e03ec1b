//! The structs and calls of `zebludor.h`, by its names. What the calls owe and are owed stands there.

/// `zebludor_counter`.
#[repr(C)]
#[derive(Clone, Copy, Debug, Default, PartialEq, Eq)]
pub struct Counter {
    pub newest: u16,
    pub count: u16,
    pub latch: u16,
    pub mode: u8,
    pub access: u8,
    pub radix: u8,
    pub count_radix: u8,
    pub progress: u8,
    pub first_byte: u8,
    pub has_first_byte: u8,
    pub has_latch: u8,
    pub load_due: u8,
    pub strobe_due: u8,
    pub high_next: u8,
    pub gate: u8,
    pub out: u8,
    pub kind: u8,
    pub status: u8,
    pub has_status: u8,
    pub is_null: u8,
    pub keeps_zero: u8,
}

/// `zebludor_pit`.
#[repr(C)]
#[derive(Clone, Copy, Debug, Default, PartialEq, Eq)]
pub struct Pit {
    pub counter_0: Counter,
    pub counter_1: Counter,
    pub counter_2: Counter,
}

/// `zebludor_pic`.
#[repr(C)]
#[derive(Clone, Copy, Debug, Default, PartialEq, Eq)]
pub struct Pic {
    pub lowest: u8,
    pub high: u8,
    pub risen: u8,
    pub masked: u8,
    pub served: u8,
    pub expected: u8,
    pub is_cascaded: u8,
    pub asks_icw4: u8,
    pub is_level_triggered: u8,
    pub vector_base: u8,
    pub slaves: u8,
    pub is_8086: u8,
    pub auto_end: u8,
    pub is_specially_nested: u8,
    pub rotates: u8,
    pub special_mask: u8,
    pub polled: u8,
    pub reads_served: u8,
}

/// `zebludor_ppi`.
#[repr(C)]
#[derive(Clone, Copy, Debug, Default, PartialEq, Eq)]
pub struct Ppi {
    pub sw1: u8,
    pub sw2: u8,
    pub a: u8,
    pub b: u8,
    pub c_upper: u8,
    pub c_lower: u8,
    pub a_latch: u8,
    pub b_latch: u8,
    pub c_latch: u8,
}

/// `zebludor_outcome`.
#[repr(C)]
#[derive(Clone, Copy, Debug, Default, PartialEq, Eq)]
pub struct Outcome {
    pub length: u64,
    pub line: u64,
    pub status: u8,
    pub fault: u8,
}

/// `zebludor_ended`.
#[repr(C)]
#[derive(Clone, Copy, Debug, Default, PartialEq, Eq)]
pub struct Ended {
    pub out: u64,
    pub err: u64,
    pub status: u8,
}

/// `zebludor_session`.
#[repr(C)]
#[derive(Debug)]
pub struct Session {
    pub at: *mut u8,
    pub is_there: bool,
}

/// `zebludor_begun`.
#[repr(C)]
#[derive(Clone, Copy, Debug, Default, PartialEq, Eq)]
pub struct Begun {
    pub line: u64,
    pub fault: u8,
}

/// `zebludor_told`.
#[repr(C)]
#[derive(Clone, Copy, Debug, Default, PartialEq, Eq)]
pub struct Told {
    pub length: u64,
    pub status: u8,
    pub fault: u8,
}

extern "C" {
    pub fn zebludor_pit_power_on(pit: *mut Pit);
    pub fn zebludor_pit_power_on_as(pit: *mut Pit, kind: u8);
    pub fn zebludor_pit_read(pit: *mut Pit, port: u8) -> u8;
    pub fn zebludor_pit_write(pit: *mut Pit, port: u8, value: u8);
    pub fn zebludor_pit_set_gate(pit: *mut Pit, n: u8, level: u8);
    pub fn zebludor_pit_out(pit: *const Pit, n: u8) -> u8;
    pub fn zebludor_pit_advance(pit: *mut Pit, ticks: u64);
    pub fn zebludor_pit_until_change(pit: *const Pit, n: u8) -> u64;
    pub fn zebludor_counter_power_on(counter: *mut Counter, gate: u8);
    pub fn zebludor_counter_power_on_as(counter: *mut Counter, kind: u8, gate: u8);
    pub fn zebludor_counter_write_control(counter: *mut Counter, word: u8);
    pub fn zebludor_counter_read_back(counter: *mut Counter, word: u8);
    pub fn zebludor_counter_write(counter: *mut Counter, value: u8);
    pub fn zebludor_counter_read(counter: *mut Counter) -> u8;
    pub fn zebludor_counter_set_gate(counter: *mut Counter, level: u8);
    pub fn zebludor_counter_out(counter: *const Counter) -> u8;
    pub fn zebludor_counter_advance(counter: *mut Counter, ticks: u64);
    pub fn zebludor_counter_until_change(counter: *const Counter) -> u64;
    pub fn zebludor_pic_power_on(pic: *mut Pic);
    pub fn zebludor_pic_set_line(pic: *mut Pic, n: u8, level: u8);
    pub fn zebludor_pic_read(pic: *mut Pic, a0: u8) -> u8;
    pub fn zebludor_pic_write(pic: *mut Pic, a0: u8, value: u8);
    pub fn zebludor_pic_request(pic: *const Pic) -> u8;
    pub fn zebludor_pic_acknowledge(pic: *mut Pic) -> u8;
    pub fn zebludor_ppi_power_on(ppi: *mut Ppi, sw1: u8, sw2: u8);
    pub fn zebludor_ppi_read(ppi: *const Ppi, port: u8, latch: u8, out2: u8) -> u8;
    pub fn zebludor_ppi_write(ppi: *mut Ppi, port: u8, value: u8);
    pub fn zebludor_ppi_port_b(ppi: *const Ppi) -> u8;
    pub fn zebludor_run(
        source: *const u8,
        source_length: usize,
        run: *const u8,
        run_length: usize,
        out: *mut u8,
        out_length: usize,
        outcome: *mut Outcome,
    );
    pub fn zebludor_run_hex(
        text: *const u8,
        text_length: usize,
        run: *const u8,
        run_length: usize,
        out: *mut u8,
        out_length: usize,
        outcome: *mut Outcome,
    );
    pub fn zebludor_pcboard(
        words: *const u8,
        words_length: usize,
        file: *const u8,
        file_length: usize,
        run: *const u8,
        run_length: usize,
        input: *const u8,
        input_length: usize,
        out: *mut u8,
        out_length: usize,
        err: *mut u8,
        err_length: usize,
        ended: *mut Ended,
    );
    pub fn zebludor_pcprobe(
        words: *const u8,
        words_length: usize,
        file: *const u8,
        file_length: usize,
        run: *const u8,
        run_length: usize,
        input: *const u8,
        input_length: usize,
        out: *mut u8,
        out_length: usize,
        err: *mut u8,
        err_length: usize,
        ended: *mut Ended,
    );
    pub fn zebludor_masm(
        names: *const u8,
        names_length: usize,
        lengths: *const u64,
        lengths_length: usize,
        bytes: *const u8,
        bytes_length: usize,
        has_map: bool,
        is_masm: bool,
        out: *mut u8,
        out_length: usize,
        err: *mut u8,
        err_length: usize,
        ended: *mut Ended,
    );
    pub fn zebludor_session_new(
        session: *mut Session,
        source: *const u8,
        source_length: usize,
        run: *const u8,
        run_length: usize,
        begun: *mut Begun,
    );
    pub fn zebludor_session_new_hex(
        session: *mut Session,
        text: *const u8,
        text_length: usize,
        run: *const u8,
        run_length: usize,
        begun: *mut Begun,
    );
    pub fn zebludor_debug_new(
        session: *mut Session,
        source: *const u8,
        source_length: usize,
        run: *const u8,
        run_length: usize,
        begun: *mut Begun,
    );
    pub fn zebludor_debug_new_hex(
        session: *mut Session,
        text: *const u8,
        text_length: usize,
        run: *const u8,
        run_length: usize,
        begun: *mut Begun,
    );
    pub fn zebludor_session_command(
        session: *mut Session,
        line: *const u8,
        line_length: usize,
        out: *mut u8,
        out_length: usize,
        told: *mut Told,
    );
    pub fn zebludor_session_text(session: *mut Session, out: *mut u8, out_length: usize, told: *mut Told);
    pub fn zebludor_session_drop(session: *mut Session);
    pub fn zebludor_limit(bytes: u64);
}
