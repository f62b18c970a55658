//! Chip C's calls of the proved library, made on the second implementation's chip.
use crate::answer::{value, Answer};
use crate::chip_c::{Call, Chip, State};
use crate::library_look::LibLooked;

#[repr(C)]
struct LibState {
    index: u16,
    red: u16,
    green: u16,
    fetched: [u16; 3],
    place: u8,
    update: u8,
}

#[repr(C)]
struct LibAnswer {
    refusal: u8,
    value: u8,
    state: LibState,
}

extern "C" {
    fn zk_c_write(s: LibState, port: u8, byte: u8, table: *mut u16, n: usize) -> LibAnswer;
    fn zk_c_read(s: LibState, port: u8, table: *const u16, n: usize) -> LibAnswer;
    fn zk_c_look(s: LibState, place: u32, table: *const u16, n: usize) -> LibLooked;
    fn zk_c_reset(s: LibState) -> LibAnswer;
}

fn state_in(s: State) -> LibState {
    let State { index, place, red, green, fetched, control } = s;
    LibState { index, red, green, fetched, place, update: control }
}

fn state_out(s: LibState) -> State {
    let LibState { index, red, green, fetched, place, update } = s;
    State { index, place, red, green, fetched, control: update }
}

/// The call, made on the chip by the library.
pub fn make(c: &mut Chip, call: Call) -> Answer {
    let (n, table) = (c.table.len(), c.table.as_mut_ptr());
    let s = state_in(c.state);
    let after = unsafe {
        match call {
            Call::Write { port, data } => zk_c_write(s, port, data, table, n),
            Call::Read { port } => zk_c_read(s, port, table, n),
            Call::Look { place } => return zk_c_look(s, place, table, n).told(),
            Call::Reset => zk_c_reset(s),
        }
    };
    c.state = state_out(after.state);
    Answer { refusal: after.refusal, ..value(after.value) }
}
