//! Chip A's calls of the proved library, made on the second implementation's chip.
use crate::answer::{colour, refused, value, Answer, DONE};
use crate::chip_a::{Call, Chip, Clock, State};
use crate::library_look::LibLooked;

#[repr(C)]
#[derive(Clone, Copy)]
pub struct LibClock {
    timing: u8,
    position: u8,
}

#[repr(C)]
pub struct LibState {
    address: u8,
    pointer: u8,
    red: u8,
    green: u8,
    readmask: u8,
    blinkmask: u8,
    control: u8,
    clock: LibClock,
}

#[repr(C)]
struct LibAnswer {
    refusal: u8,
    value: u8,
    state: LibState,
}

#[repr(C)]
struct LibClockAnswer {
    refusal: u8,
    clock: LibClock,
}

#[repr(C)]
struct LibShown {
    refusal: u8,
    red: u8,
    green: u8,
    blue: u8,
}

#[rustfmt::skip]
extern "C" {
    fn zk_a_write(
        s: LibState, select: u8, byte: u8, colours: *mut u8, n: usize, overlays: *mut u8, m: usize,
    ) -> LibAnswer;
    fn zk_a_read(s: LibState, select: u8, colours: *const u8, n: usize, overlays: *const u8, m: usize) -> LibAnswer;
    fn zk_a_look(s: LibState, place: u32, colours: *const u8, n: usize, overlays: *const u8, m: usize) -> LibLooked;
    fn zk_a_reset(s: LibState) -> LibAnswer;
    fn zk_a_step(k: LibClock) -> LibClockAnswer;
    fn zk_a_tick(k: *mut LibClock) -> u8;
    fn zk_a_pixel(
        s: LibState, enable: u8, number: u8, byte: u8, colours: *const u8, n: usize, overlays: *const u8, m: usize,
    ) -> LibShown;
    fn zk_a_pixel_refusal(
        s: LibState, enable: u8, number: u8, byte: u8, colours: *const u8, n: usize, overlays: *const u8, m: usize,
    ) -> u8;
}

fn clock_in(k: Clock) -> LibClock {
    LibClock { timing: k.timing, position: k.position }
}

fn clock_out(k: LibClock) -> Clock {
    Clock { timing: k.timing, position: k.position }
}

pub fn state_in(s: State) -> LibState {
    LibState {
        address: s.address,
        pointer: s.pointer,
        red: s.red,
        green: s.green,
        readmask: s.read_mask,
        blinkmask: s.blink_mask,
        control: s.overlay,
        clock: clock_in(s.clock),
    }
}

fn state_out(s: LibState) -> State {
    State {
        address: s.address,
        pointer: s.pointer,
        red: s.red,
        green: s.green,
        read_mask: s.readmask,
        blink_mask: s.blinkmask,
        overlay: s.control,
        clock: clock_out(s.clock),
    }
}

/// Refusal and value, 0 where refused.
fn told(refusal: u8, answered: u8) -> Answer {
    Answer { refusal, ..value(answered) }
}

/// The call, made on the chip by the library. A tick is made by value too, and the two are compared here.
pub fn make(c: &mut Chip, call: Call) -> Answer {
    let (n, m) = (c.colours.len(), c.overlays.len());
    let (colours, overlays) = (c.colours.as_mut_ptr(), c.overlays.as_mut_ptr());
    let s = state_in(c.state);
    let after = match call {
        Call::Write { select, data } => unsafe { zk_a_write(s, select, data, colours, n, overlays, m) },
        Call::Read { select } => unsafe { zk_a_read(s, select, colours, n, overlays, m) },
        Call::Look { place } => return unsafe { zk_a_look(s, place, colours, n, overlays, m) }.told(),
        Call::Reset => unsafe { zk_a_reset(s) },
        Call::Tick => return tick(&mut c.state.clock),
        Call::Pixel { enable, number, byte } => return pixel(c, enable, number, byte),
    };
    c.state = state_out(after.state);
    told(after.refusal, after.value)
}

fn tick(clock: &mut Clock) -> Answer {
    let mut lent = clock_in(*clock);
    let refusal = unsafe { zk_a_tick(&mut lent) };
    let stepped = unsafe { zk_a_step(clock_in(*clock)) };
    assert_eq!(
        (stepped.refusal, clock_out(stepped.clock)),
        (refusal, clock_out(lent)),
        "step and tick of {:?}",
        clock
    );
    *clock = clock_out(lent);
    if refusal == 0 {
        DONE
    } else {
        refused(refusal)
    }
}

fn pixel(c: &Chip, enable: u8, number: u8, byte: u8) -> Answer {
    let (n, m) = (c.colours.len(), c.overlays.len());
    let (colours, overlays) = (c.colours.as_ptr(), c.overlays.as_ptr());
    let s = state_in(c.state);
    let shown = unsafe { zk_a_pixel(s, enable, number, byte, colours, n, overlays, m) };
    let s = state_in(c.state);
    let refusal = unsafe { zk_a_pixel_refusal(s, enable, number, byte, colours, n, overlays, m) };
    assert_eq!(refusal, shown.refusal, "the pixel's two refusals on {:?}", c.state);
    Answer { refusal, ..colour([shown.red, shown.green, shown.blue]) }
}
