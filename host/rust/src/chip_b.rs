//! Chip B, the MS622424: 8,192 colours behind a queue of 64 waiting writes.
//!
//! Document 01, "Chip B" and "The nine refusals", decides, over data sheet 004: the truth table with its notes 1 and
//! 2, the register tables, "Write FIFO", PIX.RGB0 and 1, RSB; then the rulings under "All chips" and "Chip B". Of the
//! look, document 02, P5, and the replay's list of places; of the queue's places, document 02, P7.
//!
//! The queue is lent beside the map: 64 places, one entry a place, the oldest at the first position, each younger one a
//! place further, place 0 behind place 63. In a place red has bits 0 to 7, green 8 to 15, blue 16 to 23, and the
//! address has the rest from bit 24 up. Each call takes the waiting entries out of their places and puts those that
//! still wait back; unused places may hold anything, and are left full of ones, so that nothing can rest on them.
//!
//! Doubts and choices:
//! - Selects 0, 1, 3 and 7 work alike in both modes; the buffer read (select 5) is no map read and needs no read mode.
//! - A write to select 7 and a read of it touch the mode alone: counter, address and buffer stay.
//! - A completed colour leaves the buffer as it is, so a later buffer read still answers it.
//! - A pixel answers from the map as stored, waiting entries or not, in read mode too.
//! - The count of an accepted write is 4 only with a forced transfer; a write to another select reports 0.
//! - The first position steps with each entry moved, also when the last one is: an empty queue may begin anywhere.
//! - A reset reads no place of the queue, whatever first position and number it is handed.
use crate::answer::{colour, count, refused, value, Answer, DONE};
use std::collections::VecDeque;

pub const PLACES: usize = 64;
pub const MAP: usize = 24_576;

#[derive(Clone, Copy, Debug, Default, PartialEq, Eq)]
pub struct State {
    pub address: u16,
    /// The component that comes next: 0 red, 1 green, 2 blue.
    pub counter: u8,
    /// The buffer.
    pub red: u8,
    pub green: u8,
    pub command: u8,
    pub read_mode: u8,
    pub revision: u8,
    pub board: u8,
    pub waiting: u8,
    /// The place of the oldest waiting entry.
    pub first: u8,
}

/// A colour on its way into the map.
struct Entry {
    address: u16,
    colour: [u8; 3],
}

fn entry(place: u64) -> Entry {
    let bytes = place.to_le_bytes();
    Entry { address: (place >> 24) as u16, colour: [bytes[0], bytes[1], bytes[2]] }
}

pub fn place(address: u16, colour: [u8; 3]) -> u64 {
    let [red, green, blue] = colour.map(u64::from);
    red + (green << 8) + (blue << 16) + (u64::from(address) << 24)
}

/// The places in which entries wait, the oldest first; the state's first position and number are in range.
fn waiting_places(s: &State, queue: &[u64]) -> Vec<u64> {
    let (behind, ahead) = queue.split_at(usize::from(s.first));
    ahead.iter().chain(behind).copied().take(usize::from(s.waiting)).collect()
}

fn waiting(s: &State, queue: &[u64]) -> VecDeque<Entry> {
    waiting_places(s, queue).into_iter().map(entry).collect()
}

fn put_back(s: &mut State, queue: &mut [u64], entries: VecDeque<Entry>) {
    s.waiting = entries.len() as u8;
    queue.fill(u64::MAX);
    let (behind, ahead) = queue.split_at_mut(usize::from(s.first));
    for (to, e) in ahead.iter_mut().chain(behind).zip(entries) {
        *to = place(e.address, e.colour);
    }
}

/// Moves so many of the oldest entries into the map, or all if fewer wait, and steps the first position past them;
/// answers how many.
fn transfer(s: &mut State, entries: &mut VecDeque<Entry>, map: &mut [u8], most: usize) -> usize {
    for moved in 0..most {
        match entries.pop_front() {
            Some(e) => {
                let red = 3 * usize::from(e.address);
                map[red..red + 3].copy_from_slice(&e.colour);
                s.first = if s.first == 63 { 0 } else { s.first + 1 };
            }
            None => return moved,
        }
    }
    most
}

/// Refusal 9's part that reads the state and the queue of 64 places.
fn in_range(s: &State, queue: &[u64]) -> bool {
    s.address < 8192
        && s.counter <= 2
        && s.command < 32
        && s.read_mode <= 1
        && s.revision <= 7
        && s.board <= 15
        && s.waiting <= 64
        && s.first <= 63
        && waiting_places(s, queue).iter().all(|p| p >> 24 < 8192)
}

/// Refusal 1 or 9 of every call that is lent queue and map, 0 if neither; `arguments` are in range.
fn unfit(s: &State, queue: &[u64], map: &[u8], arguments: bool) -> u8 {
    if queue.len() != PLACES || map.len() != MAP {
        1
    } else if !in_range(s, queue) || !arguments {
        9
    } else {
        0
    }
}

/// After a map access: the next component, and after blue the next address.
fn step(s: &mut State) {
    s.counter = (s.counter + 1) % 3;
    if s.counter == 0 {
        s.address = (s.address + 1) % 8192;
    }
}

fn status(s: &State) -> u8 {
    let almost = if s.command & 0b1_0000 == 0 { 32 } else { 56 };
    let not_empty = u8::from(s.waiting != 0);
    let not_almost_full = u8::from(s.waiting < almost);
    let not_full = u8::from(s.waiting != 64);
    s.counter + 4 * not_empty + 8 * not_almost_full + 16 * not_full
}

pub fn write(s: &mut State, queue: &mut [u64], map: &mut [u8], select: u8, data: u8) -> Answer {
    let refusal = match (unfit(s, queue, map, true), select) {
        (0, 4..=6) => 3,
        (0, 8..=255) => 3,
        (0, 2) if s.read_mode == 1 => 5,
        (refusal, _) => refusal,
    };
    if refusal != 0 {
        return refused(refusal);
    }
    let [high, low] = s.address.to_be_bytes();
    match select {
        0 => {
            s.address = u16::from_be_bytes([high, data]);
            s.counter = 0;
        }
        1 => {
            s.address = u16::from_be_bytes([data % 32, low]);
            s.counter = 0;
        }
        2 => {
            let mut entries = waiting(s, queue);
            let forced = if entries.len() == PLACES { 4 } else { 0 };
            let moved = transfer(s, &mut entries, map, forced);
            match s.counter {
                0 => s.red = data,
                1 => s.green = data,
                _ => entries.push_back(Entry { address: s.address, colour: [s.red, s.green, data] }),
            }
            step(s);
            put_back(s, queue, entries);
            return count(moved);
        }
        3 => s.command = data % 32,
        _ => s.read_mode = 1,
    }
    count(0)
}

pub fn read(s: &mut State, queue: &[u64], map: &[u8], select: u8) -> Answer {
    let refusal = match (unfit(s, queue, map, true), select) {
        (0, 8..=255) => 3,
        (0, 5) if s.counter == 2 => 3,
        (0, 2) if s.read_mode == 0 => 5,
        (0, 2) if s.waiting != 0 => 6,
        (refusal, _) => refusal,
    };
    if refusal != 0 {
        return refused(refusal);
    }
    let [high, low] = s.address.to_be_bytes();
    value(match select {
        0 => low,
        1 => high,
        2 => {
            let component = map[3 * usize::from(s.address) + usize::from(s.counter)];
            step(s);
            component
        }
        3 => s.command,
        4 => status(s),
        5 if s.counter == 0 => {
            s.counter = 1;
            s.red
        }
        5 => s.green,
        6 => 16 * s.board + s.revision,
        _ => {
            s.read_mode = 0;
            0
        }
    })
}

/// The number at a place, of the map as stored; it moves nothing.
pub fn look(s: &State, queue: &[u64], map: &[u8], place: u32) -> Answer {
    let refusal = unfit(s, queue, map, true);
    if refusal != 0 {
        return refused(refusal);
    }
    match place {
        0 => value(s.address),
        1 => value(s.counter),
        2 => value(s.red),
        3 => value(s.green),
        4 => value(s.command),
        5 => value(s.read_mode),
        6 => value(s.revision),
        7 => value(s.board),
        8 => value(s.waiting),
        12 => value(s.first),
        0x1_0000..=0x1_5fff => value(map[place as usize - 0x1_0000]),
        _ => refused(3),
    }
}

pub fn blank(s: &mut State, queue: &mut [u64], map: &mut [u8], slots: u32) -> Answer {
    let refusal = unfit(s, queue, map, slots <= 65_535);
    if refusal != 0 {
        return refused(refusal);
    }
    let mut entries = waiting(s, queue);
    let moved = transfer(s, &mut entries, map, slots as usize);
    put_back(s, queue, entries);
    count(moved)
}

pub fn pixel(s: &State, queue: &[u64], map: &[u8], mode: u8, word: u32) -> Answer {
    let refusal = unfit(s, queue, map, mode <= 3 && word < 1 << 24);
    if refusal != 0 {
        return refused(refusal);
    }
    let entry = |gun: u32| match mode {
        0 => word % 8192,
        1 => 7_424 + (word >> (8 * gun)) % 256,
        2 => 7_680 + (word >> (8 * gun)) % 256,
        _ => 7_936 + (word >> (8 * gun)) % 256,
    };
    colour([0, 1, 2].map(|gun| map[(3 * entry(gun) + gun) as usize]))
}

/// The four timing signals, the first in bit 0. Lent the queue and no map.
pub fn sync(s: &State, queue: &[u64], signals: u8) -> Answer {
    if queue.len() != PLACES {
        return refused(1);
    }
    if !in_range(s, queue) || signals > 15 {
        return refused(9);
    }
    let anded = signals & s.command & 0b0011;
    let ored = (signals | s.command) & 0b1100;
    value(anded | ored)
}

/// Lent the queue and no map; of the state it reads what it keeps.
pub fn reset(s: &mut State, queue: &[u64]) -> Answer {
    if queue.len() != PLACES {
        return refused(1);
    }
    if s.revision > 7 || s.board > 15 {
        return refused(9);
    }
    *s = State { command: 0x03, revision: s.revision, board: s.board, ..State::default() };
    DONE
}

/// The chip with its queue and map, and any call on it.
#[derive(Clone, Debug, PartialEq, Eq)]
pub struct Chip {
    pub state: State,
    pub queue: Vec<u64>,
    pub map: Vec<u8>,
}

#[derive(Clone, Copy, Debug)]
pub enum Call {
    Write { select: u8, data: u8 },
    Read { select: u8 },
    Look { place: u32 },
    Blank { slots: u32 },
    Pixel { mode: u8, word: u32 },
    Sync { signals: u8 },
    Reset,
}

impl Chip {
    /// As an accepted reset leaves it, the map zero.
    pub fn fresh(revision: u8, board: u8) -> Chip {
        let state = State { command: 0x03, revision, board, ..State::default() };
        Chip { state, queue: vec![0; PLACES], map: vec![0; MAP] }
    }

    pub fn make(&mut self, call: Call) -> Answer {
        let (s, queue, map) = (&mut self.state, &mut self.queue, &mut self.map);
        match call {
            Call::Write { select, data } => write(s, queue, map, select, data),
            Call::Read { select } => read(s, queue, map, select),
            Call::Look { place } => look(s, queue, map, place),
            Call::Blank { slots } => blank(s, queue, map, slots),
            Call::Pixel { mode, word } => pixel(s, queue, map, mode, word),
            Call::Sync { signals } => sync(s, queue, signals),
            Call::Reset => reset(s, queue),
        }
    }
}

#[cfg(test)]
mod tests {
    use super::*;

    fn w(c: &mut Chip, select: u8, data: u8) -> u32 {
        let answer = c.make(Call::Write { select, data });
        assert_eq!(answer, count(answer.count as usize));
        answer.count
    }

    fn r(c: &mut Chip, select: u8) -> u16 {
        let answer = c.make(Call::Read { select });
        assert_eq!(answer, value(answer.value));
        answer.value
    }

    fn no(c: &mut Chip, refusal: u8, call: Call) {
        let before = c.clone();
        assert_eq!(c.make(call), refused(refusal));
        assert_eq!(*c, before);
    }

    /// So many colours completed from address 0 up: number n, 2n, 3n.
    fn with_waiting(n: u8) -> Chip {
        let mut c = Chip::fresh(3, 5);
        for k in 0..n {
            for data in [k, 2 * k, 3 * k] {
                assert_eq!(w(&mut c, 2, data), 0);
            }
        }
        assert_eq!((c.state.waiting, c.state.counter, c.state.address), (n, 0, u16::from(n)));
        c
    }

    #[test]
    fn status_on_both_sides_of_each_edge() {
        for (n, bit_4, status) in
            [(0, 0, 0x18), (31, 0, 0x1c), (32, 0, 0x14), (64, 0, 0x04), (55, 1, 0x1c), (56, 1, 0x14), (64, 1, 0x04)]
        {
            let mut c = with_waiting(n);
            w(&mut c, 3, bit_4 << 4);
            assert_eq!(r(&mut c, 4), status, "{} waiting, bit 4 {}", n, bit_4);
        }
        let mut c = with_waiting(1);
        w(&mut c, 2, 0);
        assert_eq!(r(&mut c, 4), 0x1d);
        w(&mut c, 2, 0);
        assert_eq!(r(&mut c, 4), 0x1e);
    }

    #[test]
    fn pixel_vectors() {
        let mut c = Chip::fresh(0, 0);
        c.map[3..6].copy_from_slice(&[1, 2, 3]);
        assert_eq!(c.make(Call::Pixel { mode: 0, word: 0xffe001 }), colour([1, 2, 3]));
        for (mode, base) in [(1, 7_424), (2, 7_680), (3, 7_936)] {
            c.map[3 * (base + 1)] = 10 + mode;
            c.map[3 * (base + 2) + 1] = 20 + mode;
            c.map[3 * (base + 3) + 2] = 30 + mode;
            let shown = c.make(Call::Pixel { mode, word: 0x030201 });
            assert_eq!(shown, colour([10 + mode, 20 + mode, 30 + mode]));
        }
        c.map[MAP - 1] = 9;
        assert_eq!(c.make(Call::Pixel { mode: 3, word: 0xffffff }), colour([0, 0, 9]));
        no(&mut c, 9, Call::Pixel { mode: 4, word: 0 });
        no(&mut c, 9, Call::Pixel { mode: 0, word: 0x1000000 });
    }

    #[test]
    fn any_write_to_a_full_queue_forces_four() {
        for counter in 0..3 {
            let mut c = with_waiting(64);
            c.state.counter = counter;
            assert_eq!(w(&mut c, 2, 0xee), 4);
            let left = if counter == 2 { 61 } else { 60 };
            assert_eq!((c.state.waiting, c.state.first), (left, 4));
            assert_eq!(c.map[..15], [0, 0, 0, 1, 2, 3, 2, 4, 6, 3, 6, 9, 0, 0, 0]);
            assert_eq!(c.queue[4], place(4, [4, 8, 12]));
            assert_eq!(c.queue[63], place(63, [63, 126, 189]));
            if counter == 2 {
                assert_eq!(c.queue[0], place(64, [63, 126, 0xee]));
            }
            assert_eq!(w(&mut c, 2, 0xee), 0);
        }
        // no other select does it
        let mut c = with_waiting(64);
        for select in [0, 1, 3, 7] {
            assert_eq!(w(&mut c, select, 0xff), 0);
        }
        assert_eq!(c.state.waiting, 64);
        no(&mut c, 5, Call::Write { select: 2, data: 0 });
    }

    #[test]
    fn a_place_holds_address_and_colour() {
        assert_eq!(place(0x1fff, [1, 2, 3]), 0x1f_ff03_0201);
        let e = entry(0x1f_ff03_0201);
        assert_eq!((e.address, e.colour), (0x1fff, [1, 2, 3]));
    }

    #[test]
    fn addresses_and_the_wrap() {
        let mut c = Chip::fresh(3, 5);
        w(&mut c, 2, 1);
        w(&mut c, 0, 0xff);
        assert_eq!(c.state.counter, 0);
        w(&mut c, 2, 1);
        w(&mut c, 1, 0xff);
        assert_eq!((c.state.counter, c.state.address), (0, 8191));
        w(&mut c, 2, 7);
        assert_eq!([r(&mut c, 0), r(&mut c, 1)], [0xff, 0x1f]);
        assert_eq!(c.state.counter, 1);
        w(&mut c, 2, 8);
        w(&mut c, 2, 9);
        assert_eq!((c.state.counter, c.state.address), (0, 0));
        assert_eq!(c.make(Call::Blank { slots: 65_535 }), count(1));
        assert_eq!(c.map[MAP - 3..], [7, 8, 9]);
        w(&mut c, 7, 0);
        c.state.address = 8191;
        assert_eq!([r(&mut c, 2), r(&mut c, 2), r(&mut c, 2), r(&mut c, 2)], [7, 8, 9, 0]);
        assert_eq!((c.state.counter, c.state.address), (1, 0));
    }

    #[test]
    fn the_buffer_reads_red_then_green_and_stays() {
        let mut c = Chip::fresh(3, 5);
        w(&mut c, 2, 0x11);
        w(&mut c, 2, 0x22);
        no(&mut c, 3, Call::Read { select: 5 });
        w(&mut c, 0, 0);
        assert_eq!([r(&mut c, 5), r(&mut c, 5), r(&mut c, 5)], [0x11, 0x22, 0x22]);
        assert_eq!(c.state.counter, 1);
        w(&mut c, 2, 0x33);
        assert_eq!((c.state.red, c.state.green, c.state.counter), (0x11, 0x33, 2));
    }

    #[test]
    fn reads_of_the_map_need_the_mode_and_an_empty_queue() {
        let mut c = with_waiting(1);
        no(&mut c, 5, Call::Read { select: 2 });
        w(&mut c, 7, 0xff);
        no(&mut c, 6, Call::Read { select: 2 });
        no(&mut c, 5, Call::Write { select: 2, data: 0 });
        assert_eq!(c.make(Call::Blank { slots: 0 }), count(0));
        assert_eq!(c.make(Call::Blank { slots: 3 }), count(1));
        assert_eq!(r(&mut c, 2), 0);
        assert_eq!(r(&mut c, 7), 0);
        assert_eq!((c.state.read_mode, c.state.counter), (0, 1));
        no(&mut c, 5, Call::Read { select: 2 });
    }

    /// The answer of a look that is accepted and moves nothing.
    fn l(c: &mut Chip, place: u32) -> u16 {
        let before = c.clone();
        let answer = c.make(Call::Look { place });
        assert_eq!((answer, &*c), (value(answer.value), &before));
        answer.value
    }

    #[test]
    fn a_look_at_every_place() {
        let mut c = with_waiting(33);
        let (red, green, command, read_mode, revision, board) = (0x91, 0x7e, 0x1b, 1, 6, 13);
        let (address, counter, waiting, first) = (0x1234, 2, 33, 0x1e);
        c.queue.rotate_right(0x1e);
        c.state = State { address, counter, red, green, command, read_mode, revision, board, waiting, first };
        let numbers = [0x1234, 2, 0x91, 0x7e, 0x1b, 1, 6, 13, 33, 0x1e];
        assert_eq!([0, 1, 2, 3, 4, 5, 6, 7, 8, 12].map(|place| l(&mut c, place)), numbers);
        for n in (0..MAP).step_by(7).chain([MAP - 1]) {
            c.map[n] = (n / 7) as u8;
            assert_eq!(l(&mut c, 0x1_0000 + n as u32), (n / 7 % 256) as u16);
        }
        for place in [9, 10, 11, 13, 0xff, 0x100, 0x1000, 0xffff, 0x1_6000, 0x2_0000, 0x11_0000, 1 << 31, u32::MAX] {
            no(&mut c, 3, Call::Look { place });
        }
    }

    #[test]
    fn a_look_answers_from_the_map_as_stored() {
        let mut c = with_waiting(3);
        let stored = |c: &mut Chip| [6, 7, 8].map(|n| l(c, 0x1_0000 + n));
        assert_eq!((stored(&mut c), l(&mut c, 8), l(&mut c, 0)), ([0, 0, 0], 3, 3));
        w(&mut c, 7, 0);
        assert_eq!((stored(&mut c), l(&mut c, 8), l(&mut c, 5)), ([0, 0, 0], 3, 1));
        assert_eq!(c.make(Call::Blank { slots: 3 }), count(3));
        assert_eq!((stored(&mut c), l(&mut c, 8), l(&mut c, 5)), ([2, 4, 6], 0, 1));
        r(&mut c, 7);
        assert_eq!((stored(&mut c), l(&mut c, 5)), ([2, 4, 6], 0));
    }

    #[test]
    fn blanking_moves_the_smaller_number() {
        let mut c = with_waiting(10);
        assert_eq!(c.make(Call::Blank { slots: 4 }), count(4));
        assert_eq!((c.state.waiting, c.state.first, c.queue[4]), (6, 4, place(4, [4, 8, 12])));
        assert_eq!(c.map[9..15], [3, 6, 9, 0, 0, 0]);
        no(&mut c, 9, Call::Blank { slots: 65_536 });
        assert_eq!(c.make(Call::Blank { slots: 65_535 }), count(6));
        assert_eq!((c.state.waiting, c.state.first), (0, 10));
    }

    #[test]
    fn the_ring_goes_round_its_places() {
        let mut c = with_waiting(62);
        assert_eq!(c.make(Call::Blank { slots: 62 }), count(62));
        for data in 1..=15 {
            assert_eq!(w(&mut c, 2, data), 0);
        }
        assert_eq!((c.state.waiting, c.state.first), (5, 62));
        for (n, at) in [62, 63, 0, 1, 2].into_iter().enumerate() {
            let red = 3 * n as u8 + 1;
            assert_eq!(c.queue[at], place(62 + n as u16, [red, red + 1, red + 2]));
        }
        assert_eq!(c.make(Call::Blank { slots: 3 }), count(3));
        assert_eq!((c.state.waiting, c.state.first), (2, 1));
        assert_eq!(c.map[186..198], [1, 2, 3, 4, 5, 6, 7, 8, 9, 0, 0, 0]);
        assert_eq!(c.make(Call::Blank { slots: 3 }), count(2));
        assert_eq!((c.state.waiting, c.state.first, &c.map[195..201]), (0, 3, &[10, 11, 12, 13, 14, 15][..]));
    }

    #[test]
    fn unused_places_hold_anything() {
        for (first, n) in [(0, 0), (0, 63), (5, 1), (63, 2), (40, 30), (1, 63)] {
            for at in 0..PLACES {
                let mut c = with_waiting(n);
                c.state.first = first;
                c.queue.rotate_right(first.into());
                c.queue[at] = 8192 << 24;
                let waits = (at + PLACES - usize::from(first)) % PLACES < n.into();
                let refusal = if waits { 9 } else { 0 };
                assert_eq!(c.make(Call::Sync { signals: 0 }).refusal, refusal, "place {}, {} from {}", at, n, first);
            }
        }
    }

    #[test]
    fn registers_and_signals() {
        let mut c = Chip::fresh(7, 15);
        assert_eq!(r(&mut c, 6), 0xf7);
        assert_eq!(r(&mut c, 3), 0x03);
        assert_eq!(c.make(Call::Sync { signals: 0b1011 }), value(0b1011u8));
        w(&mut c, 3, 0xff);
        assert_eq!(r(&mut c, 3), 0x1f);
        assert_eq!(c.make(Call::Sync { signals: 0b0001 }), value(0b1101u8));
        w(&mut c, 3, 0x06);
        assert_eq!(c.make(Call::Sync { signals: 0b1001 }), value(0b1100u8));
        no(&mut c, 9, Call::Sync { signals: 16 });
        for select in [4, 5, 6, 8, 255] {
            no(&mut c, 3, Call::Write { select, data: 0 });
        }
        no(&mut c, 3, Call::Read { select: 8 });
    }

    #[test]
    fn reset_keeps_map_revision_and_board() {
        let mut c = with_waiting(64);
        w(&mut c, 2, 1);
        w(&mut c, 7, 1);
        w(&mut c, 3, 0x1c);
        let map = c.map.clone();
        assert_eq!(c.make(Call::Reset), DONE);
        assert_eq!((c.state, &c.map), (Chip::fresh(3, 5).state, &map));
        assert_eq!(r(&mut c, 4), 0x18);
        // a state that no other call takes
        c.state = State { address: 9000, counter: 7, waiting: 99, first: 64, command: 0xff, read_mode: 2, ..c.state };
        c.queue.fill(u64::MAX);
        assert_eq!(c.make(Call::Reset), DONE);
        assert_eq!((c.state, r(&mut c, 4)), (Chip::fresh(3, 5).state, 0x18));
    }

    #[test]
    fn ranges_and_lengths_come_first() {
        let calls = [
            Call::Write { select: 2, data: 0 },
            Call::Write { select: 9, data: 0 },
            Call::Read { select: 2 },
            Call::Look { place: 0 },
            Call::Look { place: 9 },
            Call::Blank { slots: 0 },
            Call::Pixel { mode: 0, word: 0 },
            Call::Sync { signals: 0 },
            Call::Reset,
        ];
        let set: [fn(&mut Chip); 9] = [
            |c| c.state.revision = 8,
            |c| c.state.board = 16,
            |c| c.state.address = 8192,
            |c| c.state.counter = 3,
            |c| c.state.command = 0x20,
            |c| c.state.read_mode = 2,
            |c| c.state.waiting = 65,
            |c| c.state.first = 64,
            |c| c.queue[1] = 8192 << 24,
        ];
        for (n, set) in set.into_iter().enumerate() {
            for (k, call) in calls.into_iter().enumerate() {
                let mut c = with_waiting(2);
                set(&mut c);
                if k < 8 || n < 2 {
                    no(&mut c, 9, call);
                } else {
                    assert_eq!(c.clone().make(call), DONE);
                }
                c.map.pop();
                if k < 7 {
                    no(&mut c, 1, call);
                }
                c.queue.push(0);
                no(&mut c, 1, call);
                c.queue.truncate(63);
                no(&mut c, 1, call);
            }
        }
    }
}
