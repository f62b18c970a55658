//! Chip B's calls of the proved library, made on the second implementation's chip.
use crate::answer::{colour, Answer, DONE};
use crate::chip_b::{Call, Chip, State};
use crate::library_look::LibLooked;

#[repr(C)]
struct LibPort {
    address: u16,
    counter: u8,
    red: u8,
    green: u8,
}

#[repr(C)]
struct LibControl {
    command: u8,
    readmode: u8,
}

#[repr(C)]
struct LibIdent {
    revision: u8,
    board: u8,
}

#[repr(C)]
struct LibFifo {
    first: u8,
    waiting: u8,
}

#[repr(C)]
struct LibState {
    port: LibPort,
    control: LibControl,
    ident: LibIdent,
    fifo: LibFifo,
}

#[repr(C)]
struct LibAnswer {
    refusal: u8,
    value: u8,
    count: u16,
    state: LibState,
}

#[repr(C)]
struct LibShown {
    refusal: u8,
    red: u8,
    green: u8,
    blue: u8,
}

#[rustfmt::skip]
extern "C" {
    fn zk_b_write(s: LibState, select: u8, byte: u8, queue: *mut u64, q: usize, map: *mut u8, n: usize) -> LibAnswer;
    fn zk_b_read(s: LibState, select: u8, queue: *const u64, q: usize, map: *const u8, n: usize) -> LibAnswer;
    fn zk_b_look(s: LibState, place: u32, queue: *const u64, q: usize, map: *const u8, n: usize) -> LibLooked;
    fn zk_b_blank(s: LibState, slots: u32, queue: *const u64, q: usize, map: *mut u8, n: usize) -> LibAnswer;
    fn zk_b_pixel(s: LibState, mode: u8, word: u32, queue: *const u64, q: usize, map: *const u8, n: usize) -> LibShown;
    fn zk_b_sync(s: LibState, signals: u8, queue: *const u64, q: usize) -> LibAnswer;
    fn zk_b_reset(s: LibState, queue: *const u64, q: usize) -> LibAnswer;
}

fn state_in(s: State) -> LibState {
    let State { address, counter, red, green, command, read_mode, revision, board, waiting, first } = s;
    LibState {
        port: LibPort { address, counter, red, green },
        control: LibControl { command, readmode: read_mode },
        ident: LibIdent { revision, board },
        fifo: LibFifo { first, waiting },
    }
}

fn state_out(s: LibState) -> State {
    let LibState { port, control, ident, fifo } = s;
    let LibPort { address, counter, red, green } = port;
    State {
        address,
        counter,
        red,
        green,
        command: control.command,
        read_mode: control.readmode,
        revision: ident.revision,
        board: ident.board,
        waiting: fifo.waiting,
        first: fifo.first,
    }
}

/// The call, made on the chip by the library.
pub fn make(c: &mut Chip, call: Call) -> Answer {
    let (q, n) = (c.queue.len(), c.map.len());
    let (queue, map) = (c.queue.as_mut_ptr(), c.map.as_mut_ptr());
    let s = state_in(c.state);
    let after = unsafe {
        match call {
            Call::Write { select, data } => zk_b_write(s, select, data, queue, q, map, n),
            Call::Read { select } => zk_b_read(s, select, queue, q, map, n),
            Call::Look { place } => return zk_b_look(s, place, queue, q, map, n).told(),
            Call::Blank { slots } => zk_b_blank(s, slots, queue, q, map, n),
            Call::Sync { signals } => zk_b_sync(s, signals, queue, q),
            Call::Reset => zk_b_reset(s, queue, q),
            Call::Pixel { mode, word } => {
                let shown = zk_b_pixel(s, mode, word, queue, q, map, n);
                return Answer { refusal: shown.refusal, ..colour([shown.red, shown.green, shown.blue]) };
            }
        }
    };
    c.state = state_out(after.state);
    Answer { refusal: after.refusal, value: after.value.into(), count: after.count.into(), ..DONE }
}
