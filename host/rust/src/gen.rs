//! Random inputs for the comparison: chips with their tables, calls, runs of calls. Sheets and logs: gen_text.rs.
//!
//! No page decides here. A `fit` chip is in range with tables of the right lengths; of the `any` chips one in three
//! has one field out of its range, and one in eight of their tables has another length. A run of calls goes by small
//! tasks (load, read back, fill the queue, switch the mode), so that queues fill, colours tear and wraps are crossed;
//! calls of any kind stand between them, and looks anywhere.
use crate::{chip_a, chip_b, chip_c};

/// Random numbers (splitmix64), of its own, so that a test can compare while it draws.
pub struct Random(u64);

impl Random {
    pub fn new(seed: u64) -> Random {
        Random(seed)
    }

    pub fn word(&mut self) -> u64 {
        self.0 = self.0.wrapping_add(0x9e37_79b9_7f4a_7c15);
        let z = (self.0 ^ (self.0 >> 30)).wrapping_mul(0xbf58_476d_1ce4_e5b9);
        let z = (z ^ (z >> 27)).wrapping_mul(0x94d0_49bb_1331_11eb);
        z ^ (z >> 31)
    }

    pub fn byte(&mut self) -> u8 {
        self.word() as u8
    }

    pub fn bytes(&mut self, length: usize) -> Vec<u8> {
        let mut bytes: Vec<u8> = (0..length / 8 + 1).flat_map(|_| self.word().to_le_bytes()).collect();
        bytes.truncate(length);
        bytes
    }

    pub fn below(&mut self, limit: usize) -> usize {
        (self.word() % limit as u64) as usize
    }

    /// Below a limit that fits a byte.
    fn small(&mut self, limit: u8) -> u8 {
        self.byte() % limit
    }

    pub fn one_in(&mut self, n: usize) -> bool {
        self.below(n) == 0
    }

    pub fn pick<T: Copy>(&mut self, from: &[T]) -> T {
        from[self.below(from.len())]
    }

    /// A byte from the first that is out of range on; often that first one.
    fn beyond(&mut self, first: u8) -> u8 {
        if self.one_in(3) {
            first
        } else {
            first + self.below(256 - usize::from(first)) as u8
        }
    }

    /// A byte, often next to a wrap.
    fn edge(&mut self) -> u8 {
        let any = self.byte();
        self.pick(&[0x00, 0x03, 0x07, 0xfe, 0xff, any, any, any])
    }

    /// Mostly the right length; else one off, none, or any up to twice it.
    pub fn length(&mut self, right: usize) -> usize {
        match self.below(32) {
            0 => right - 1,
            1 => right + 1,
            2 => 0,
            3 => self.below(2 * right),
            _ => right,
        }
    }

    /// A look's place, of blocks with their first place and how many they have: in one of them, at its ends, just
    /// beyond them, in it but for a bit above all blocks, or any number.
    fn place(&mut self, blocks: &[(u32, u32)]) -> u32 {
        let (first, length) = self.pick(blocks);
        let inside = first + self.below(length as usize) as u32;
        let above = inside | 1 << (17 + self.below(15));
        match self.below(16) {
            0 => first,
            1 => first + length - 1,
            2 => first.wrapping_sub(1),
            3 => first + length,
            4 => above,
            5 => self.word() as u32,
            _ => inside,
        }
    }

    /// A buffer's length for so many bytes: often just enough, or one too few.
    pub fn buffer(&mut self, bytes: usize) -> usize {
        match self.below(8) {
            0 => bytes.saturating_sub(1),
            1 => bytes + 1,
            2 => 0,
            3 => self.below(bytes + 1),
            4 => bytes + self.below(100),
            _ => bytes,
        }
    }
}

/// A run with looks put in before about one call in eight.
fn with_looks<C>(r: &mut Random, calls: Vec<C>, look: fn(&mut Random) -> C) -> Vec<C> {
    let mut run = Vec::new();
    for call in calls {
        if r.one_in(8) {
            run.push(look(r));
        }
        run.push(call);
    }
    run
}

/// Chip A's table bytes: any, or one of them over 15, or mostly none.
fn four_bits(r: &mut Random, length: usize) -> Vec<u8> {
    let mut bytes = r.bytes(length);
    let kind = r.below(8);
    if kind != 0 {
        bytes.iter_mut().for_each(|byte| *byte %= 16);
    }
    if kind == 1 {
        let at = r.below(length);
        bytes[at] = r.beyond(16);
    }
    bytes
}

pub fn fit_a(r: &mut Random) -> chip_a::Chip {
    let any = r.byte();
    let mut clock = chip_a::Clock { timing: r.pick(&[0x00, 0x31, 0x0f, 0xf0, 0xff, any, any]), position: 0 };
    let (on, period) = (clock.on_time(), clock.period());
    let inside = r.small(period);
    clock.position = r.pick(&[0, on - 1, on, period - 1, inside, inside, inside]);
    let state = chip_a::State {
        address: r.edge(),
        pointer: r.small(3),
        red: r.small(16),
        green: r.small(16),
        read_mask: r.byte() & r.byte(),
        blink_mask: r.byte() | r.byte(),
        overlay: r.byte() & 0x4f,
        clock,
    };
    chip_a::Chip { state, colours: four_bits(r, chip_a::COLOURS), overlays: four_bits(r, chip_a::OVERLAYS) }
}

pub fn any_a(r: &mut Random) -> chip_a::Chip {
    let mut chip = fit_a(r);
    let s = &mut chip.state;
    if r.one_in(3) {
        match r.below(5) {
            0 => s.pointer = r.beyond(3),
            1 => s.red = r.beyond(16),
            2 => s.green = r.beyond(16),
            3 => s.overlay |= r.pick(&[0x10, 0x20, 0x80, 0xb0]),
            _ => s.clock.position = r.beyond(s.clock.period()),
        }
    }
    chip.colours.resize(r.length(chip_a::COLOURS), 1);
    chip.overlays.resize(r.length(chip_a::OVERLAYS), 1);
    chip
}

fn look_a(r: &mut Random) -> chip_a::Call {
    chip_a::Call::Look { place: r.place(&[(0, 9), (0x100, 12), (0x1000, 768)]) }
}

pub fn call_a(r: &mut Random) -> chip_a::Call {
    use chip_a::Call::{Pixel, Read, Reset, Tick, Write};
    let far = r.beyond(8);
    let select = r.pick(&[0, 0, 1, 1, 1, 3, 3, 3, 4, 5, 6, 7, 2, far]);
    match r.below(20) {
        0..=4 => Write { select, data: r.byte() },
        5..=9 => Read { select },
        10 | 11 => Tick,
        12 => Reset,
        13..=16 => look_a(r),
        _ => {
            let enable = if r.one_in(10) { r.beyond(2) } else { r.small(2) };
            let number = if r.one_in(10) { r.beyond(4) } else { r.small(4) };
            Pixel { enable, number, byte: r.byte() }
        }
    }
}

/// At least so many calls on chip A.
pub fn run_a(r: &mut Random, length: usize) -> Vec<chip_a::Call> {
    use chip_a::Call::{Pixel, Read, Tick, Write};
    let mut calls = Vec::new();
    while calls.len() < length {
        let task = r.below(5);
        let table = r.pick(&[1, 3]);
        if task < 2 && !r.one_in(4) {
            calls.push(Write { select: 0, data: r.edge() });
        }
        match task {
            // load a table, now and then torn by the other one or by an address read
            0 => {
                for _ in 0..r.below(14) {
                    calls.push(match r.below(24) {
                        0 => Write { select: 4 - table, data: r.byte() },
                        1 => Read { select: 0 },
                        2 => Read { select: table },
                        _ => Write { select: table, data: r.byte() },
                    });
                }
            }
            // read it back
            1 => {
                for _ in 0..r.below(14) {
                    let select = if r.one_in(12) { r.pick(&[0, 1, 3]) } else { table };
                    calls.push(Read { select });
                }
            }
            2 => {
                for select in 4..8 {
                    calls.push(Write { select, data: r.byte() });
                    calls.push(Read { select });
                }
            }
            // cross the blink's edges
            3 => {
                if r.one_in(2) {
                    calls.push(Write { select: 7, data: r.pick(&[0x00, 0x01, 0x10]) });
                }
                for _ in 0..r.below(40) {
                    let pixel = Pixel { enable: r.small(2), number: r.small(4), byte: r.byte() };
                    calls.push(if r.one_in(3) { pixel } else { Tick });
                }
            }
            _ => calls.extend([call_a(r), call_a(r), call_a(r), call_a(r)]),
        }
    }
    with_looks(r, calls, look_a)
}

pub fn fit_b(r: &mut Random) -> chip_b::Chip {
    let (any, anywhere) = (r.small(65), r.small(64));
    let waiting = r.pick(&[0, 0, 1, 31, 32, 55, 56, 60, 61, 63, 64, 64, 64, any, any]);
    let first = r.pick(&[0, 1, 4, 60, 62, 63, anywhere, anywhere, anywhere]);
    // the places that no entry waits in hold anything
    let mut queue: Vec<u64> = (0..chip_b::PLACES).map(|_| r.word() | r.pick(&[0, u64::MAX])).collect();
    for place in &mut queue[..usize::from(waiting)] {
        // often one of two addresses, so that the order of the moves shows
        let address = if r.one_in(2) { 8_190 + r.below(2) } else { r.below(8_192) };
        *place = chip_b::place(address as u16, [r.byte(), r.byte(), r.byte()]);
    }
    queue.rotate_right(first.into());
    let state = chip_b::State {
        address: if r.one_in(3) { 8_190 + r.below(2) as u16 } else { r.below(8_192) as u16 },
        counter: r.small(3),
        red: r.byte(),
        green: r.byte(),
        command: r.small(32),
        read_mode: r.small(2),
        revision: r.small(8),
        board: r.small(16),
        waiting,
        first,
    };
    chip_b::Chip { state, queue, map: r.bytes(chip_b::MAP) }
}

pub fn any_b(r: &mut Random) -> chip_b::Chip {
    let mut chip = fit_b(r);
    let s = &mut chip.state;
    if r.one_in(3) {
        match r.below(10) {
            0 => s.address = r.pick(&[8_192, 8_193, 0x4000, 0xffff]),
            1 => s.counter = r.beyond(3),
            2 => s.command |= r.pick(&[0x20, 0x40, 0x80, 0xe0]),
            3 => s.read_mode = r.beyond(2),
            4 => s.revision = r.beyond(8),
            5 => s.board = r.beyond(16),
            6 => s.waiting = r.beyond(65),
            // fewer or more than do wait
            7 => s.waiting = r.small(65),
            8 => s.first = r.beyond(64),
            // an address too wide, in a place where an entry waits or in another
            _ => chip.queue[r.below(chip_b::PLACES)] |= r.pick(&[1 << 37, 1 << 40, 1 << 56, 1 << 63]),
        }
    }
    chip.queue.resize(r.length(chip_b::PLACES), 0);
    chip.map.resize(r.length(chip_b::MAP), 1);
    chip
}

fn pixel_b(r: &mut Random) -> chip_b::Call {
    let any = r.word() as u32;
    let edge = r.pick(&[0, 0x1fff, 0xffe001, 0xff_ffff, 0x100_0000]);
    let mode = if r.one_in(16) { r.beyond(4) } else { r.small(4) };
    chip_b::Call::Pixel {
        mode,
        word: r.pick(&[any, edge, any >> 8, any >> 8, any >> 8, any >> 8, any >> 8, any >> 8]),
    }
}

fn look_b(r: &mut Random) -> chip_b::Call {
    chip_b::Call::Look { place: r.place(&[(0, 9), (12, 1), (0x1_0000, 24_576)]) }
}

pub fn call_b(r: &mut Random) -> chip_b::Call {
    use chip_b::Call::{Blank, Read, Reset, Sync, Write};
    let far = r.beyond(8);
    let any = r.below(70) as u32;
    match r.below(24) {
        0..=6 => Write { select: r.pick(&[0, 1, 2, 2, 2, 2, 2, 2, 3, 7, 4, 5, 6, far]), data: r.byte() },
        7..=12 => Read { select: r.pick(&[0, 1, 2, 2, 2, 2, 3, 4, 5, 5, 5, 6, 7, far]) },
        13 | 14 => Blank { slots: r.pick(&[0, 1, 4, 63, 64, 65_535, 65_536, u32::MAX, any, any, any]) },
        15 | 16 => pixel_b(r),
        17 | 18 => Sync { signals: if r.one_in(6) { r.beyond(16) } else { r.small(16) } },
        19 => Reset,
        _ => look_b(r),
    }
}

/// At least so many calls on chip B.
pub fn run_b(r: &mut Random, length: usize) -> Vec<chip_b::Call> {
    use chip_b::Call::{Blank, Read, Sync, Write};
    let mut calls = Vec::new();
    while calls.len() < length {
        let task = r.below(6);
        if task < 3 && !r.one_in(3) {
            calls.push(Write { select: 0, data: r.edge() });
            calls.push(Write { select: 1, data: r.edge() });
        }
        match task {
            // fill the queue, now and then torn by an address or a buffer read
            0 | 1 => {
                if !r.one_in(6) {
                    calls.push(Read { select: 7 });
                }
                for _ in 0..r.below(280) {
                    calls.push(match r.below(90) {
                        0 => Write { select: r.pick(&[0, 1]), data: r.edge() },
                        1 | 2 => Read { select: 5 },
                        3 => Read { select: 4 },
                        4 => Blank { slots: r.below(3) as u32 },
                        _ => Write { select: 2, data: r.byte() },
                    });
                }
            }
            // read the map, now and then with entries waiting
            2 => {
                calls.push(Write { select: 7, data: r.byte() });
                if !r.one_in(4) {
                    calls.push(Blank { slots: 64 });
                }
                for _ in 0..r.below(14) {
                    let select = if r.one_in(12) { r.pick(&[0, 1, 4, 5]) } else { 2 };
                    calls.push(Read { select });
                }
                if !r.one_in(4) {
                    calls.push(Read { select: 7 });
                }
            }
            3 => {
                for _ in 0..r.below(5) {
                    calls.push(Blank { slots: r.below(12) as u32 });
                    calls.push(Read { select: 4 });
                }
            }
            4 => {
                for _ in 0..r.below(8) {
                    calls.push(Write { select: 3, data: r.byte() });
                    calls.push(Sync { signals: r.small(16) });
                    calls.push(pixel_b(r));
                }
            }
            _ => calls.extend([call_b(r), call_b(r), call_b(r), call_b(r)]),
        }
    }
    with_looks(r, calls, look_b)
}

pub fn fit_c(r: &mut Random) -> chip_c::Chip {
    let any = r.word() as u16;
    let (write, read) = (0x4000 + any % 1_024, 0x8000 + any % 1_024);
    let edge = r.pick(&[0x3fff, 0x4000, 0x43ff, 0x4400, 0x7fff, 0x8000, 0x83ff, 0x8400, 0x000d, 0x000f]);
    let ten = |r: &mut Random| r.below(1_024) as u16;
    let state = chip_c::State {
        index: r.pick(&[any, edge, edge, 0x000e, 0x43ff, 0x83ff, write, write, read, read]),
        place: r.small(3),
        red: ten(r),
        green: ten(r),
        fetched: [ten(r), ten(r), ten(r)],
        control: r.byte(),
    };
    // the numbers are taken modulo 1,024: one table in four has larger ones
    let limit = if r.one_in(4) { 65_536 } else { 1_024 };
    chip_c::Chip { state, table: (0..chip_c::TABLE).map(|_| r.below(limit) as u16).collect() }
}

pub fn any_c(r: &mut Random) -> chip_c::Chip {
    let mut chip = fit_c(r);
    if r.one_in(3) {
        let wide = r.pick(&[1_024, 1_025, 0x8000, 0xffff]);
        match r.below(6) {
            0 => chip.state.place = r.beyond(3),
            1 => chip.state.red = wide,
            2 => chip.state.green = wide,
            n => chip.state.fetched[n - 3] = wide,
        }
    }
    chip.table.resize(r.length(chip_c::TABLE), 1);
    chip
}

fn index_byte(r: &mut Random, port: u8) -> u8 {
    let any = r.byte();
    if port == 4 {
        r.pick(&[0x00, 0x05, 0x0e, 0xfe, 0xff, any, any])
    } else {
        r.pick(&[0x00, 0x40, 0x41, 0x43, 0x80, 0x81, 0x83, 0x44, 0x84, any])
    }
}

fn look_c(r: &mut Random) -> chip_c::Call {
    chip_c::Call::Look { place: r.place(&[(0, 8), (0x1_0000, 3_072)]) }
}

pub fn call_c(r: &mut Random) -> chip_c::Call {
    use chip_c::Call::{Read, Reset, Write};
    let far = if r.one_in(2) { r.small(4) } else { r.beyond(7) };
    let port = r.pick(&[4, 4, 5, 5, 6, 6, 6, 6, 6, 6, far]);
    match r.below(20) {
        0 => Reset,
        1..=8 if port == 6 => Write { port, data: r.byte() },
        1..=8 => Write { port, data: index_byte(r, port) },
        9..=15 => Read { port },
        _ => look_c(r),
    }
}

/// At least so many calls on chip C.
pub fn run_c(r: &mut Random, length: usize) -> Vec<chip_c::Call> {
    use chip_c::Call::{Read, Write};
    let mut calls = Vec::new();
    while calls.len() < length {
        let task = r.below(4);
        let low = Write { port: 4, data: index_byte(r, 4) };
        let high = Write { port: 5, data: r.pick(&[0x00, 0x01, 0x02, 0x03, 0x03]) + [0x40, 0x80, 0x00, 0x00][task] };
        // the high byte last, as the data sheet asks, or forgotten, or first
        match (task, r.below(6)) {
            (3, _) => {}
            (_, 0) => calls.push(low),
            (_, 1) => calls.push(high),
            (_, 2) => calls.extend([high, low]),
            _ => calls.extend([low, high]),
        }
        match task {
            // load, now and then torn by an index write or a read
            0 => {
                for _ in 0..r.below(14) {
                    let data = Write { port: 6, data: r.byte() };
                    calls.push(if r.one_in(8) { r.pick(&[low, high, Read { port: 6 }]) } else { data });
                }
            }
            // read it back, now and then torn by an index access or a write
            1 => {
                for _ in 0..r.below(14) {
                    let other = r.pick(&[low, high, Read { port: 5 }, Write { port: 6, data: 0 }]);
                    calls.push(if r.one_in(8) { other } else { Read { port: 6 } });
                }
            }
            // register 0x000E, if the high byte is 0
            2 => calls.extend([Write { port: 4, data: 0x0e }, Write { port: 6, data: r.byte() }, Read { port: 6 }]),
            _ => calls.extend([call_c(r), call_c(r), call_c(r), call_c(r)]),
        }
    }
    with_looks(r, calls, look_c)
}

#[cfg(test)]
mod tests {
    use super::*;
    use crate::answer::{refused, value, Answer};
    use std::collections::BTreeSet;

    /// A refusal has no value, count or colour and leaves all as it was; after an acceptance the chip is in range.
    fn refusal<C: PartialEq + std::fmt::Debug>(before: C, after: C, answer: Answer, next: Answer) -> u8 {
        if answer.refusal == 0 {
            assert_ne!(next.refusal, 9);
        } else {
            assert_eq!((after, answer), (before, refused(answer.refusal)));
        }
        answer.refusal
    }

    #[test]
    fn single_calls_reach_every_refusal_of_the_chips() {
        let mut r = Random::new(1);
        let (mut a, mut b, mut c) = (BTreeSet::new(), BTreeSet::new(), BTreeSet::new());
        for _ in 0..1_000 {
            let before = any_a(&mut r);
            let mut after = before.clone();
            let answer = after.make(call_a(&mut r));
            let next = after.clone().make(chip_a::Call::Read { select: 0 });
            // a tick takes the clock alone, in whatever state it stands
            let ticked = before.state.clock != after.state.clock && next.refusal == 9;
            a.insert(if ticked { 0 } else { refusal(before, after, answer, next) });

            let before = any_b(&mut r);
            let mut after = before.clone();
            let answer = after.make(call_b(&mut r));
            let next = after.clone().make(chip_b::Call::Read { select: 0 });
            b.insert(refusal(before, after, answer, next));

            let before = any_c(&mut r);
            let mut after = before.clone();
            let answer = after.make(call_c(&mut r));
            let next = after.clone().make(chip_c::Call::Read { port: 4 });
            c.insert(refusal(before, after, answer, next));
        }
        assert_eq!(a, BTreeSet::from([0, 1, 3, 9]));
        assert_eq!(b, BTreeSet::from([0, 1, 3, 5, 6, 9]));
        assert_eq!(c, BTreeSet::from([0, 1, 3, 4, 9]));
    }

    #[test]
    fn fit_chips_are_in_range() {
        let mut r = Random::new(8);
        for _ in 0..300 {
            assert_eq!(fit_a(&mut r).make(chip_a::Call::Read { select: 0 }).refusal, 0);
            assert_eq!(fit_b(&mut r).make(chip_b::Call::Read { select: 0 }).refusal, 0);
            assert_eq!(fit_c(&mut r).make(chip_c::Call::Read { port: 4 }).refusal, 0);
        }
    }

    /// A run's answers, but for those to its looks, and what it leaves are the same without its looks; looks of both
    /// kinds, accepted and refused, are in it.
    macro_rules! without_looks {
        ($r:expr, $chip:ident, $fit:ident, $run:ident) => {
            let (chip, run) = ($fit($r), $run($r, 4_000));
            let looks = |call: &$chip::Call| matches!(call, $chip::Call::Look { .. });
            let (mut all, mut rest, mut there, mut nowhere) = (chip.clone(), chip, 0, 0);
            for call in run {
                let answer = all.make(call);
                if looks(&call) {
                    *if answer.refusal == 0 { &mut there } else { &mut nowhere } += 1;
                    assert_eq!(answer, if answer.refusal == 0 { value(answer.value) } else { refused(3) });
                } else {
                    assert_eq!(answer, rest.make(call));
                }
            }
            assert_eq!(all, rest);
            assert!(there > 100 && nowhere > 20, "{} {}", there, nowhere);
        };
    }

    #[test]
    fn runs_without_their_looks() {
        let mut r = Random::new(9);
        without_looks!(&mut r, chip_a, fit_a, run_a);
        without_looks!(&mut r, chip_b, fit_b, run_b);
        without_looks!(&mut r, chip_c, fit_c, run_c);
    }

    #[test]
    fn places_are_drawn_at_every_edge() {
        let mut r = Random::new(10);
        let drawn: BTreeSet<u32> = (0..4_000).map(|_| r.place(&[(0, 9), (0x1000, 768)])).collect();
        for place in (0..10).chain([0xfff, 0x1000, 0x1001, 0x12ff, 0x1300, u32::MAX]) {
            assert!(drawn.contains(&place), "{:x}", place);
        }
        assert!(drawn.iter().filter(|place| **place > 0x1_ffff).count() > 200);
    }

    #[test]
    fn runs_on_chip_a_cross_its_wraps() {
        let mut r = Random::new(2);
        let mut chip = fit_a(&mut r);
        let (mut colours, mut overlays, mut blinks, mut refusals) = (0, 0, 0, BTreeSet::new());
        for call in run_a(&mut r, 4_000) {
            let before = chip.state;
            refusals.insert(chip.make(call).refusal);
            let stepped = before.pointer == 2 && chip.state.pointer == 0;
            match call {
                chip_a::Call::Write { select: 1, .. } | chip_a::Call::Read { select: 1 } => {
                    colours += usize::from(stepped && chip.state.address == 0);
                }
                chip_a::Call::Write { select: 3, .. } | chip_a::Call::Read { select: 3 } => {
                    overlays += usize::from(stepped && chip.state.address % 4 == 0);
                }
                chip_a::Call::Tick => blinks += usize::from(chip.state.clock.position == 0),
                _ => {}
            }
        }
        assert!(colours > 5 && overlays > 5 && blinks > 5, "{} {} {}", colours, overlays, blinks);
        assert_eq!(refusals, BTreeSet::from([0, 3, 9]));
    }

    #[test]
    fn runs_on_chip_b_fill_its_queue() {
        let mut r = Random::new(3);
        let mut chip = fit_b(&mut r);
        let (mut forced, mut wraps, mut rings, mut refusals) = ([0; 3], 0, 0, BTreeSet::new());
        let mut make = |chip: &mut chip_b::Chip, call: chip_b::Call| {
            let before = chip.state;
            rings += usize::from(before.first + before.waiting > 64);
            let answer = chip.make(call);
            refusals.insert(answer.refusal);
            if matches!(call, chip_b::Call::Write { select: 2, .. }) {
                forced[usize::from(before.counter)] += usize::from(answer.count == 4);
                wraps += usize::from(before.address == 8_191 && chip.state.address == 0);
            }
        };
        for call in run_b(&mut r, 10_000) {
            make(&mut chip, call);
        }
        // no run comes to a full queue with a blue to come (the green before it forces four): single calls do
        for _ in 0..1_000 {
            make(&mut fit_b(&mut r), call_b(&mut r));
        }
        assert!(forced.iter().all(|n| *n > 2) && wraps > 2 && rings > 2_000, "{:?} {} {}", forced, wraps, rings);
        assert_eq!(refusals, BTreeSet::from([0, 3, 5, 6, 9]));
    }

    #[test]
    fn runs_on_chip_c_cross_its_wraps() {
        let mut r = Random::new(4);
        let mut chip = fit_c(&mut r);
        let (mut writes, mut reads, mut refusals) = (0, 0, BTreeSet::new());
        for call in run_c(&mut r, 10_000) {
            let before = chip.state.index;
            refusals.insert(chip.make(call).refusal);
            let stepped = (before, chip.state.index);
            writes += usize::from(matches!(call, chip_c::Call::Write { port: 6, .. }) && stepped == (0x43ff, 0x4000));
            reads += usize::from(matches!(call, chip_c::Call::Read { port: 6 }) && stepped == (0x83ff, 0x8000));
        }
        assert!(writes > 2 && reads > 2, "{} {}", writes, reads);
        assert_eq!(refusals, BTreeSet::from([0, 3, 4]));
    }
}
