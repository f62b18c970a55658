//! Chip A, the HD153108: 256 colours and 4 overlays.
//!
//! Document 01, "Chip A" and "The nine refusals", decides, over data sheet 003: Tables 1.1 and 1.2 (selects, overlay
//! control), 2 and 3 (pointer and address), 4 (overlay or colour), 5.1 and 5.2 (blink times); then the rulings under
//! "All chips" and "Chip A". Of the look, document 02, P5, and the replay's list of places. Of the test for overlay
//! number 0, document 02, P3, over document 01.
//!
//! Doubts and choices:
//! - A blue write stores the latches; nothing says that it clears them, so they stay.
//! - The low four bits are for data writes (selects 1 and 3); address and registers take the whole byte.
//! - With bit 6 and overlay number 0 after read mask and blink, Table 4 shows the colour at the pixel byte: the masked
//!   byte, as without enable.
//! - A line with its read mask bit set reads 0 in the on time too; the blink mask only takes further lines away.
use crate::answer::{colour, refused, value, Answer, DONE};

pub const COLOURS: usize = 768;
pub const OVERLAYS: usize = 12;

/// The part of the state that a tick is lent.
#[derive(Clone, Copy, Debug, Default, PartialEq, Eq)]
pub struct Clock {
    pub timing: u8,
    pub position: u8,
}

impl Clock {
    pub fn on_time(self) -> u8 {
        4 * ((self.timing & 15) + 1)
    }

    pub fn period(self) -> u8 {
        self.on_time() + 4 * ((self.timing >> 4) + 1)
    }

    fn in_range(self) -> bool {
        self.position < self.period()
    }
}

#[derive(Clone, Copy, Debug, Default, PartialEq, Eq)]
pub struct State {
    pub address: u8,
    /// The component that comes next: 0 red, 1 green, 2 blue.
    pub pointer: u8,
    /// The latches.
    pub red: u8,
    pub green: u8,
    pub read_mask: u8,
    pub blink_mask: u8,
    pub overlay: u8,
    pub clock: Clock,
}

/// Refusal 1 or 9 of every call that is lent both tables, 0 if neither.
pub fn unfit(s: &State, colours: &[u8], overlays: &[u8]) -> u8 {
    let in_range =
        s.pointer <= 2 && s.red <= 15 && s.green <= 15 && s.overlay & 0b1011_0000 == 0 && s.clock.in_range();
    if colours.len() != COLOURS || overlays.len() != OVERLAYS {
        1
    } else if !in_range {
        9
    } else {
        0
    }
}

fn port_refusal(s: &State, colours: &[u8], overlays: &[u8], select: u8) -> u8 {
    match unfit(s, colours, overlays) {
        0 if select > 7 || select == 2 => 3,
        refusal => refusal,
    }
}

/// After a data access: the next component, and after blue the next entry. An overlay's number is in two bits.
fn step(s: &mut State, number_bits: u8) {
    s.pointer = (s.pointer + 1) % 3;
    if s.pointer == 0 {
        s.address = (s.address & !number_bits) | (s.address.wrapping_add(1) & number_bits);
    }
}

fn write_data(s: &mut State, table: &mut [u8], number_bits: u8, data: u8) {
    let component = data % 16;
    match s.pointer {
        0 => s.red = component,
        1 => s.green = component,
        _ => {
            let first = 3 * usize::from(s.address & number_bits);
            table[first..first + 3].copy_from_slice(&[s.red, s.green, component]);
        }
    }
    step(s, number_bits);
}

fn read_data(s: &mut State, table: &[u8], number_bits: u8) -> u8 {
    let component = table[3 * usize::from(s.address & number_bits) + usize::from(s.pointer)];
    step(s, number_bits);
    component
}

pub fn write(s: &mut State, colours: &mut [u8], overlays: &mut [u8], select: u8, data: u8) -> Answer {
    let refusal = port_refusal(s, colours, overlays, select);
    if refusal != 0 {
        return refused(refusal);
    }
    match select {
        0 => {
            s.address = data;
            s.pointer = 0;
        }
        1 => write_data(s, colours, 0xff, data),
        3 => write_data(s, overlays, 0x03, data),
        4 => s.read_mask = data,
        5 => s.blink_mask = data,
        6 => s.overlay = data & 0b0100_1111,
        _ => s.clock = Clock { timing: data, position: 0 },
    }
    DONE
}

pub fn read(s: &mut State, colours: &[u8], overlays: &[u8], select: u8) -> Answer {
    let refusal = port_refusal(s, colours, overlays, select);
    if refusal != 0 {
        return refused(refusal);
    }
    value(match select {
        0 => {
            s.pointer = 0;
            s.address
        }
        1 => read_data(s, colours, 0xff),
        3 => read_data(s, overlays, 0x03),
        4 => s.read_mask,
        5 => s.blink_mask,
        6 => s.overlay,
        _ => s.clock.timing,
    })
}

/// The number at a place; it moves nothing.
pub fn look(s: &State, colours: &[u8], overlays: &[u8], place: u32) -> Answer {
    let refusal = unfit(s, colours, overlays);
    if refusal != 0 {
        return refused(refusal);
    }
    value(match place {
        0 => s.address,
        1 => s.pointer,
        2 => s.red,
        3 => s.green,
        4 => s.read_mask,
        5 => s.blink_mask,
        6 => s.overlay,
        7 => s.clock.timing,
        8 => s.clock.position,
        0x100..=0x10b => overlays[place as usize - 0x100],
        0x1000..=0x12ff => colours[place as usize - 0x1000],
        _ => return refused(3),
    })
}

/// Lent no table, and reads nothing of the state: never refused.
pub fn reset(s: &mut State) -> Answer {
    *s = State::default();
    DONE
}

pub fn tick(clock: &mut Clock) -> Answer {
    if !clock.in_range() {
        return refused(9);
    }
    clock.position = (clock.position + 1) % clock.period();
    DONE
}

pub fn pixel(s: &State, colours: &[u8], overlays: &[u8], enable: u8, number: u8, byte: u8) -> Answer {
    let refusal = match unfit(s, colours, overlays) {
        0 if enable > 1 || number > 3 => 9,
        refusal => refusal,
    };
    if refusal != 0 {
        return refused(refusal);
    }
    let off = s.clock.position >= s.clock.on_time();
    let masked = |lines: u8, read_mask: u8, blink_mask: u8| {
        let read = lines & !read_mask;
        if off {
            read & blink_mask
        } else {
            read
        }
    };
    let masked_number = masked(number, s.overlay & 3, (s.overlay >> 2) & 3);
    let see_through = s.overlay & 0b0100_0000 != 0 && masked_number == 0;
    let (table, entry) = if enable == 0 || see_through {
        (colours, masked(byte, s.read_mask, s.blink_mask))
    } else {
        (overlays, masked_number)
    };
    let first = 3 * usize::from(entry);
    colour([table[first], table[first + 1], table[first + 2]])
}

/// The chip with its tables, and any call on it.
#[derive(Clone, Debug, PartialEq, Eq)]
pub struct Chip {
    pub state: State,
    pub colours: Vec<u8>,
    pub overlays: Vec<u8>,
}

#[derive(Clone, Copy, Debug)]
pub enum Call {
    Write { select: u8, data: u8 },
    Read { select: u8 },
    Look { place: u32 },
    Reset,
    Tick,
    Pixel { enable: u8, number: u8, byte: u8 },
}

impl Chip {
    /// As an accepted reset leaves it, every table zero.
    pub fn fresh() -> Chip {
        Chip { state: State::default(), colours: vec![0; COLOURS], overlays: vec![0; OVERLAYS] }
    }

    pub fn make(&mut self, call: Call) -> Answer {
        let (s, colours, overlays) = (&mut self.state, &mut self.colours, &mut self.overlays);
        match call {
            Call::Write { select, data } => write(s, colours, overlays, select, data),
            Call::Read { select } => read(s, colours, overlays, select),
            Call::Look { place } => look(s, colours, overlays, place),
            Call::Reset => reset(s),
            Call::Tick => tick(&mut s.clock),
            Call::Pixel { enable, number, byte } => pixel(s, colours, overlays, enable, number, byte),
        }
    }
}

#[cfg(test)]
mod tests {
    use super::*;

    fn chip() -> Chip {
        let mut c = Chip::fresh();
        for n in 0..256 {
            c.colours[3 * n..3 * n + 3].copy_from_slice(&[n as u8, 0xc0, 0]);
        }
        for n in 0..4 {
            c.overlays[3 * n..3 * n + 3].copy_from_slice(&[n as u8, 0x0f, 1]);
        }
        c
    }

    fn w(c: &mut Chip, select: u8, data: u8) {
        assert_eq!(c.make(Call::Write { select, data }), DONE);
    }

    fn r(c: &mut Chip, select: u8) -> u16 {
        let answer = c.make(Call::Read { select });
        assert_eq!(answer, value(answer.value));
        answer.value
    }

    fn shown(c: &mut Chip, enable: u8, number: u8, byte: u8) -> [u8; 3] {
        let answer = c.make(Call::Pixel { enable, number, byte });
        assert_eq!(answer.refusal, 0);
        answer.colour
    }

    /// The call is refused with that number and changes nothing.
    fn no(c: &mut Chip, refusal: u8, call: Call) {
        let before = c.clone();
        assert_eq!(c.make(call), refused(refusal));
        assert_eq!(*c, before);
    }

    #[test]
    fn timing_31_is_on_for_8_and_off_for_16() {
        let mut c = chip();
        w(&mut c, 7, 0x31);
        for round in 0..2 {
            for position in 0..24 {
                assert_eq!(c.state.clock.position, position, "round {}", round);
                let entry = if position < 8 { 0xff } else { 0 };
                assert_eq!(shown(&mut c, 0, 0, 0xff), [entry, 0xc0, 0]);
                assert_eq!(c.make(Call::Tick), DONE);
            }
        }
        assert_eq!(c.make(Call::Tick), DONE);
        w(&mut c, 7, 0x31);
        assert_eq!(c.state.clock, Clock { timing: 0x31, position: 0 });
        assert_eq!((Clock { timing: 0xff, position: 0 }).period(), 128);
        assert_eq!((Clock { timing: 0x00, position: 0 }).period(), 8);
    }

    #[test]
    fn read_mask_f0_and_byte_a5_is_entry_05() {
        let mut c = chip();
        w(&mut c, 4, 0xf0);
        assert_eq!(shown(&mut c, 0, 3, 0xa5), [0x05, 0xc0, 0]);
        w(&mut c, 5, 0x0c);
        c.state.clock.position = 4;
        assert_eq!(shown(&mut c, 0, 3, 0xa5), [0x04, 0xc0, 0]);
    }

    #[test]
    fn an_address_read_restarts_at_red() {
        let mut c = chip();
        w(&mut c, 0, 0x10);
        w(&mut c, 1, 0x03);
        assert_eq!(r(&mut c, 0), 0x10);
        for data in [7, 2, 1] {
            w(&mut c, 1, data);
        }
        assert_eq!(c.colours[0x30..0x33], [7, 2, 1]);
        assert_eq!((c.state.address, c.state.pointer), (0x11, 0));
    }

    #[test]
    fn both_tables_share_pointer_and_latches() {
        let mut c = chip();
        w(&mut c, 0, 0x07);
        w(&mut c, 1, 0xf9);
        w(&mut c, 3, 0xa8);
        assert_eq!(c.overlays, chip().overlays);
        w(&mut c, 3, 0x17);
        assert_eq!(c.overlays[9..12], [9, 8, 7]);
        assert_eq!((c.state.address, c.state.pointer), (0x04, 0));
        // the latches outlive the blue write and an address write
        w(&mut c, 0, 0xff);
        assert_eq!((c.state.red, c.state.green), (9, 8));
        assert_eq!([r(&mut c, 1), r(&mut c, 3)], [0xff, 8]);
        assert_eq!((c.state.red, c.state.green), (9, 8));
        w(&mut c, 1, 5);
        assert_eq!(c.colours[765..], [9, 8, 5]);
        assert_eq!((c.state.address, c.state.pointer), (0, 0));
    }

    #[test]
    fn reads_answer_the_lent_byte_and_step() {
        let mut c = chip();
        w(&mut c, 0, 0xff);
        assert_eq!([r(&mut c, 1), r(&mut c, 1), r(&mut c, 1), r(&mut c, 1)], [0xff, 0xc0, 0, 0]);
        w(&mut c, 0, 0xff);
        assert_eq!([r(&mut c, 3), r(&mut c, 3), r(&mut c, 3), r(&mut c, 3)], [3, 15, 1, 0]);
        assert_eq!(r(&mut c, 0), 0xfc);
    }

    #[test]
    fn registers_read_back_and_reserved_bits_read_0() {
        let mut c = chip();
        for (select, read) in [(4, 0xff), (5, 0xff), (6, 0x4f), (7, 0xff)] {
            w(&mut c, select, 0xff);
            assert_eq!(r(&mut c, select), read);
        }
        c.state.pointer = 2;
        assert_eq!(c.make(Call::Reset), DONE);
        assert_eq!(c, chip());
    }

    /// The answer of a look that is accepted and moves nothing.
    fn l(c: &mut Chip, place: u32) -> u16 {
        let before = c.clone();
        let answer = c.make(Call::Look { place });
        assert_eq!((answer, &*c), (value(answer.value), &before));
        answer.value
    }

    #[test]
    fn a_look_at_every_place() {
        let mut c = chip();
        let clock = Clock { timing: 0xe4, position: 0x35 };
        let (red, green, read_mask, blink_mask, overlay) = (13, 7, 0xa5, 0x3c, 0x4a);
        c.state = State { address: 0x91, pointer: 2, red, green, read_mask, blink_mask, overlay, clock };
        let numbers = [0x91, 2, 13, 7, 0xa5, 0x3c, 0x4a, 0xe4, 0x35];
        assert_eq!([0, 1, 2, 3, 4, 5, 6, 7, 8].map(|place| l(&mut c, place)), numbers);
        for n in 0..12 {
            c.overlays[n] = 0x40 + n as u8;
            assert_eq!(l(&mut c, 0x100 + n as u32), 0x40 + n as u16);
        }
        for n in 0..768 {
            c.colours[n] = 255 - (n / 3) as u8;
            assert_eq!(l(&mut c, 0x1000 + n as u32), 255 - n as u16 / 3);
        }
        for place in [9, 0xff, 0x10c, 0xfff, 0x1300, 0x1_0000, 0x1_1000, 0x8000_0000, u32::MAX] {
            no(&mut c, 3, Call::Look { place });
        }
    }

    #[test]
    fn a_look_tears_no_colour() {
        let mut c = chip();
        w(&mut c, 0, 0x10);
        w(&mut c, 1, 0x03);
        assert_eq!([l(&mut c, 0), l(&mut c, 1), l(&mut c, 2)], [0x10, 1, 3]);
        w(&mut c, 1, 0x07);
        w(&mut c, 1, 0x02);
        assert_eq!(c.colours[0x30..0x33], [3, 7, 2]);
        assert_eq!([l(&mut c, 0), l(&mut c, 0x1030), l(&mut c, 0x1031), l(&mut c, 0x1032)], [0x11, 3, 7, 2]);
    }

    #[test]
    fn overlay_masks() {
        let mut c = chip();
        w(&mut c, 6, 0x0d);
        assert_eq!(shown(&mut c, 1, 3, 0x22), [2, 15, 1]);
        w(&mut c, 6, 0x44);
        assert_eq!(shown(&mut c, 1, 3, 0x22), [3, 15, 1]);
        c.state.clock.position = 4;
        assert_eq!(shown(&mut c, 1, 3, 0x22), [1, 15, 1]);
        w(&mut c, 6, 0x03);
        assert_eq!(shown(&mut c, 1, 0, 0x22), [0, 15, 1]);
    }

    #[test]
    fn bit_6_tests_the_number_after_read_mask_and_blink() {
        let mut c = chip();
        w(&mut c, 5, 0xff);
        let picture = [0x22, 0xc0, 0];
        // bits 0, 1 read mask and 2, 3 blink mask the two lines; numbers 0 to 3, in the on time and in the off time
        let (o1, o2, o3) = ([1, 15, 1], [2, 15, 1], [3, 15, 1]);
        for (control, on, off) in [
            (0x40, [picture, o1, o2, o3], [picture, picture, picture, picture]),
            (0x4c, [picture, o1, o2, o3], [picture, o1, o2, o3]),
            (0x44, [picture, o1, o2, o3], [picture, o1, picture, o1]),
            (0x41, [picture, picture, o2, o2], [picture, picture, picture, picture]),
            (0x4e, [picture, o1, picture, o1], [picture, o1, picture, o1]),
            (0x4f, [picture, picture, picture, picture], [picture, picture, picture, picture]),
        ] {
            w(&mut c, 6, control);
            for (position, want) in [(3, on), (4, off)] {
                c.state.clock.position = position;
                assert_eq!([0, 1, 2, 3].map(|n| shown(&mut c, 1, n, 0x22)), want, "{:#x} {}", control, position);
            }
        }
        // without bit 6 a number that is hidden is overlay 0
        w(&mut c, 6, 0x00);
        assert_eq!(shown(&mut c, 1, 3, 0x22), [0, 15, 1]);
        // the picture in the off time is masked itself
        w(&mut c, 6, 0x40);
        w(&mut c, 5, 0x0f);
        assert_eq!(shown(&mut c, 1, 3, 0x22), [0x02, 0xc0, 0]);
    }

    #[test]
    fn refusals_in_their_order() {
        let calls = [
            Call::Write { select: 8, data: 0 },
            Call::Read { select: 2 },
            Call::Look { place: 9 },
            Call::Pixel { enable: 2, number: 0, byte: 0 },
        ];
        for (call, last) in calls.into_iter().zip([3, 3, 3, 9]) {
            let mut c = chip();
            no(&mut c, last, call);
            c.state.pointer = 3;
            no(&mut c, 9, call);
            c.overlays.push(0);
            no(&mut c, 1, call);
            c.overlays.pop();
            c.colours.pop();
            no(&mut c, 1, call);
        }
        let mut c = chip();
        for select in [2, 8, 15, 255] {
            no(&mut c, 3, Call::Write { select, data: 0 });
            no(&mut c, 3, Call::Read { select });
        }
        no(&mut c, 9, Call::Pixel { enable: 0, number: 4, byte: 0 });
    }

    #[test]
    fn ranges_of_the_state() {
        let set: [fn(&mut State); 7] = [
            |s| s.pointer = 3,
            |s| s.red = 16,
            |s| s.green = 16,
            |s| s.overlay = 0x10,
            |s| s.overlay = 0x20,
            |s| s.overlay = 0x80,
            |s| s.clock.position = 8,
        ];
        for (n, set) in set.into_iter().enumerate() {
            let mut c = chip();
            set(&mut c.state);
            no(&mut c, 9, Call::Write { select: 7, data: 0 });
            no(&mut c, 9, Call::Read { select: 0 });
            no(&mut c, 9, Call::Look { place: 0 });
            no(&mut c, 9, Call::Pixel { enable: 0, number: 0, byte: 0 });
            if n == 6 {
                no(&mut c, 9, Call::Tick);
            } else {
                assert_eq!(c.make(Call::Tick), DONE);
            }
            // a reset reads nothing
            c.colours.clear();
            assert_eq!(c.make(Call::Reset), DONE);
            assert_eq!(c.state, State::default());
        }
    }
}
