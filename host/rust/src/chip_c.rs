//! Chip C, the palette port of the RGB640: 1,024 colours of ten bits.
//!
//! Document 01, "Chip C" and "The nine refusals", decides, over data sheet 001: sections 9.3 and 9.4.1, Tables 23 to
//! 26, and 10.15 (register 0x000E: bit 2 for reads, bit 1 for writes, 0 enables); then the rulings under "All chips"
//! and "Chip C". Of the look, document 02, P5, and the replay's list of places.
//!
//! Doubts and choices:
//! - A third write leaves the latches as they are; nothing says that it clears them.
//! - The fetched entry is kept modulo 1,024, as its range in the state demands; the lent number stays as it is.
//! - Port 5's read answers its byte and restarts nothing; only its write does.
//! - A component of 8 bits that is 256 or more is refused as one of 6 bits that is 64 or more: 9.
use crate::answer::{refused, value, Answer, DONE};

pub const TABLE: usize = 3_072;

#[derive(Clone, Copy, Debug, Default, PartialEq, Eq)]
pub struct State {
    pub index: u16,
    /// The place in the order: 0 red, 1 green, 2 blue.
    pub place: u8,
    /// The latches.
    pub red: u16,
    pub green: u16,
    /// The fetched entry: red, green, blue.
    pub fetched: [u16; 3],
    /// Register 0x000E.
    pub control: u8,
}

/// What the index names.
enum Named {
    Write(usize),
    Read(usize),
    Control,
    Nothing,
}

fn named(index: u16) -> Named {
    match index {
        0x000e => Named::Control,
        0x4000..=0x43ff => Named::Write(usize::from(index - 0x4000)),
        0x8000..=0x83ff => Named::Read(usize::from(index - 0x8000)),
        _ => Named::Nothing,
    }
}

/// A component of 4 to 8 bits as ten, by each width's formula.
pub fn expand(width: u32, component: u32) -> Answer {
    let ten = match (width, component) {
        (4, 0..=15) => 64 * component + 4 * component + component / 4,
        (5, 0..=31) => 33 * component,
        (6, 0..=63) => 16 * component + component / 4,
        (7, 0..=127) => 8 * component + component / 16,
        (8, 0..=255) => 4 * component + component / 64,
        _ => return refused(9),
    };
    value(ten as u16)
}

/// Refusal 1 or 9 of every call that is lent the table, or else 3 where there is no such port or place.
fn unfit(s: &State, table: &[u16], there: bool) -> u8 {
    let components = [s.red, s.green, s.fetched[0], s.fetched[1], s.fetched[2]];
    if table.len() != TABLE {
        1
    } else if s.place > 2 || components.iter().any(|c| *c > 1_023) {
        9
    } else if !there {
        3
    } else {
        0
    }
}

/// If the index is in read space, its entry is fetched.
fn fetch(s: &mut State, table: &[u16]) {
    if let Named::Read(entry) = named(s.index) {
        for gun in 0..3 {
            s.fetched[gun] = table[3 * entry + gun] % 1_024;
        }
    }
}

/// After a palette access: the next component; after the third, where the bit enables it, the next entry.
fn step(s: &mut State, table: &[u16], disables: u8) {
    s.place = (s.place + 1) % 3;
    if s.place == 0 && s.control & disables == 0 {
        let space = s.index - s.index % 1_024;
        s.index = space + (s.index + 1) % 1_024;
        fetch(s, table);
    }
}

pub fn write(s: &mut State, table: &mut [u16], port: u8, data: u8) -> Answer {
    let refusal = unfit(s, table, (4..=6).contains(&port));
    if refusal != 0 {
        return refused(refusal);
    }
    let [high, low] = s.index.to_be_bytes();
    if port == 4 {
        s.index = u16::from_be_bytes([high, data]);
        return DONE;
    }
    if port == 5 {
        s.index = u16::from_be_bytes([data, low]);
        s.place = 0;
        fetch(s, table);
        return DONE;
    }
    match named(s.index) {
        Named::Control => s.control = data,
        Named::Write(entry) => {
            let component = expand(8, u32::from(data)).value;
            match s.place {
                0 => s.red = component,
                1 => s.green = component,
                _ => table[3 * entry..3 * entry + 3].copy_from_slice(&[s.red, s.green, component]),
            }
            step(s, table, 0b010);
        }
        Named::Read(_) | Named::Nothing => return refused(4),
    }
    DONE
}

pub fn read(s: &mut State, table: &[u16], port: u8) -> Answer {
    let refusal = unfit(s, table, (4..=6).contains(&port));
    if refusal != 0 {
        return refused(refusal);
    }
    let [high, low] = s.index.to_be_bytes();
    match (port, named(s.index)) {
        (4, _) => value(low),
        (5, _) => value(high),
        (_, Named::Control) => value(s.control),
        (_, Named::Read(_)) => {
            let component = s.fetched[usize::from(s.place)];
            step(s, table, 0b100);
            value(component / 4)
        }
        (_, Named::Write(_) | Named::Nothing) => refused(4),
    }
}

/// The number at a place, of the table as lent; it moves nothing.
pub fn look(s: &State, table: &[u16], place: u32) -> Answer {
    let refusal = unfit(s, table, matches!(place, 0..=7 | 0x1_0000..=0x1_0bff));
    if refusal != 0 {
        return refused(refusal);
    }
    let [fetched_red, fetched_green, fetched_blue] = s.fetched;
    match place {
        0 => value(s.index),
        1 => value(s.place),
        2 => value(s.red),
        3 => value(s.green),
        4 => value(fetched_red),
        5 => value(fetched_green),
        6 => value(fetched_blue),
        7 => value(s.control),
        number => value(table[number as usize - 0x1_0000]),
    }
}

/// Lent no table, and reads nothing of the state: never refused.
pub fn reset(s: &mut State) -> Answer {
    *s = State::default();
    DONE
}

/// The chip with its table, and any call on it.
#[derive(Clone, Debug, PartialEq, Eq)]
pub struct Chip {
    pub state: State,
    pub table: Vec<u16>,
}

#[derive(Clone, Copy, Debug)]
pub enum Call {
    Write { port: u8, data: u8 },
    Read { port: u8 },
    Look { place: u32 },
    Reset,
}

impl Chip {
    /// As an accepted reset leaves it, the table zero.
    pub fn fresh() -> Chip {
        Chip { state: State::default(), table: vec![0; TABLE] }
    }

    pub fn make(&mut self, call: Call) -> Answer {
        match call {
            Call::Write { port, data } => write(&mut self.state, &mut self.table, port, data),
            Call::Read { port } => read(&mut self.state, &self.table, port),
            Call::Look { place } => look(&self.state, &self.table, place),
            Call::Reset => reset(&mut self.state),
        }
    }
}

#[cfg(test)]
mod tests {
    use super::*;

    /// Entry n is n, 1,023 - n and 7, each with a multiple of 1,024 on top.
    fn chip() -> Chip {
        let mut c = Chip::fresh();
        for n in 0..1_024u16 {
            let entry = [n + 1_024, 1_023 - n + 63 * 1_024, 7];
            c.table[3 * usize::from(n)..3 * usize::from(n) + 3].copy_from_slice(&entry);
        }
        c
    }

    fn w(c: &mut Chip, port: u8, data: u8) {
        assert_eq!(c.make(Call::Write { port, data }), DONE);
    }

    fn r(c: &mut Chip, port: u8) -> u16 {
        let answer = c.make(Call::Read { port });
        assert_eq!(answer, value(answer.value));
        answer.value
    }

    fn at(c: &mut Chip, index: u16) {
        w(c, 4, index as u8);
        w(c, 5, (index >> 8) as u8);
        assert_eq!([r(c, 4), r(c, 5)], [index & 0xff, index >> 8]);
    }

    fn no(c: &mut Chip, refusal: u8, call: Call) {
        let before = c.clone();
        assert_eq!(c.make(call), refused(refusal));
        assert_eq!(*c, before);
    }

    #[test]
    fn expanded_components() {
        for (component, ten) in [(0, 0), (63, 252), (64, 257), (128, 514), (255, 1_023)] {
            assert_eq!(expand(8, component), value(ten as u16));
        }
        for (component, ten) in [(0, 0), (4, 65), (63, 1_023)] {
            assert_eq!(expand(6, component), value(ten as u16));
        }
        // bits 0011 become 00110011 and 00
        for (width, component, ten) in [(4, 3, 204), (4, 4, 273), (4, 15, 1_023), (5, 1, 33), (7, 16, 129)] {
            assert_eq!(expand(width, component), value(ten as u16));
        }
        for (width, component) in [(4, 16), (5, 32), (6, 64), (7, 128), (8, 256), (6, u32::MAX)] {
            assert_eq!(expand(width, component), refused(9));
        }
        for width in [0, 3, 9, 12, u32::MAX] {
            assert_eq!(expand(width, 0), refused(9));
        }
    }

    #[test]
    fn the_third_write_stores_at_43ff_and_wraps() {
        let mut c = chip();
        at(&mut c, 0x43ff);
        w(&mut c, 6, 0xff);
        w(&mut c, 6, 0x80);
        assert_eq!(c.table, chip().table);
        w(&mut c, 6, 0x00);
        assert_eq!(c.table[3_069..], [1_023, 514, 0]);
        assert_eq!((c.state.index, c.state.place), (0x4000, 0));
        assert_eq!((c.state.red, c.state.green, c.state.fetched), (1_023, 514, [0; 3]));
        // the index as it then stands: port 4 moves it and nothing else
        w(&mut c, 6, 0x01);
        w(&mut c, 6, 0x02);
        w(&mut c, 4, 0x10);
        w(&mut c, 6, 0x03);
        assert_eq!(c.table[..3], chip().table[..3]);
        assert_eq!(c.table[0x30..0x33], [4, 8, 12]);
        assert_eq!(c.state.index, 0x4011);
        // port 5 restarts at red and keeps the latches
        w(&mut c, 6, 0xff);
        w(&mut c, 5, 0x40);
        assert_eq!((c.state.place, c.state.red, c.state.green), (0, 1_023, 8));
    }

    #[test]
    fn port_4_alone_fetches_nothing() {
        let mut c = chip();
        at(&mut c, 0x8000);
        w(&mut c, 4, 0x05);
        assert_eq!([r(&mut c, 6), r(&mut c, 6), r(&mut c, 6)], [0, 255, 1]);
        assert_eq!((c.state.index, c.state.fetched), (0x8006, [6, 1_017, 7]));
        assert_eq!([r(&mut c, 6), r(&mut c, 6), r(&mut c, 6)], [1, 254, 1]);
    }

    #[test]
    fn reads_wrap_and_a_fetched_entry_is_a_copy() {
        let mut c = chip();
        at(&mut c, 0x83ff);
        assert_eq!(c.state.fetched, [1_023, 0, 7]);
        c.table[3_069] = 0;
        assert_eq!([r(&mut c, 6), r(&mut c, 6), r(&mut c, 6)], [255, 0, 1]);
        assert_eq!((c.state.index, c.state.fetched), (0x8000, [0, 1_023, 7]));
    }

    /// The answer of a look that is accepted and moves nothing.
    fn l(c: &mut Chip, place: u32) -> u16 {
        let before = c.clone();
        let answer = c.make(Call::Look { place });
        assert_eq!((answer, &*c), (value(answer.value), &before));
        answer.value
    }

    #[test]
    fn a_look_at_every_place() {
        let mut c = chip();
        let (fetched, control) = ([303, 104, 905], 0xa6);
        c.state = State { index: 0x8123, place: 2, red: 1_001, green: 502, fetched, control };
        let numbers = [0x8123, 2, 1_001, 502, 303, 104, 905, 0xa6];
        assert_eq!([0, 1, 2, 3, 4, 5, 6, 7].map(|place| l(&mut c, place)), numbers);
        for n in 0..TABLE {
            c.table[n] = 65_535 - 21 * n as u16;
            assert_eq!(l(&mut c, 0x1_0000 + n as u32), 65_535 - 21 * n as u16);
        }
        for place in [8, 0x0e, 0xff, 0x4000, 0xffff, 0x1_0c00, 0x2_0000, 0x11_0000, 0x8000_0000, u32::MAX] {
            no(&mut c, 3, Call::Look { place });
        }
    }

    #[test]
    fn looks_between_reads() {
        let mut c = chip();
        at(&mut c, 0x8005);
        assert_eq!([r(&mut c, 6), l(&mut c, 1), l(&mut c, 4), l(&mut c, 0x1_000f)], [1, 1, 5, 1_029]);
        assert_eq!([r(&mut c, 6), l(&mut c, 1), l(&mut c, 5)], [254, 2, 1_018]);
        assert_eq!([r(&mut c, 6), l(&mut c, 0), l(&mut c, 4), l(&mut c, 0x1_0012)], [1, 0x8006, 6, 1_030]);
    }

    #[test]
    fn register_0e_disables_each_direction() {
        let mut c = chip();
        at(&mut c, 0x000e);
        c.state.place = 1;
        w(&mut c, 6, 0xfd);
        assert_eq!(r(&mut c, 6), 0xfd);
        assert_eq!((c.state.index, c.state.place), (0x000e, 1));
        at(&mut c, 0x8001);
        assert_eq!([r(&mut c, 6), r(&mut c, 6), r(&mut c, 6)], [0, 255, 1]);
        assert_eq!((c.state.index, c.state.place, c.state.fetched), (0x8001, 0, [1, 1_022, 7]));
        at(&mut c, 0x4001);
        for data in [1, 2, 3] {
            w(&mut c, 6, data);
        }
        assert_eq!(c.state.index, 0x4002);
        c.state.control = 0x02;
        for data in [1, 2, 3] {
            w(&mut c, 6, data);
        }
        assert_eq!((c.state.index, c.state.place), (0x4002, 0));
        at(&mut c, 0x8001);
        assert_eq!([r(&mut c, 6), r(&mut c, 6), r(&mut c, 6)], [1, 2, 3]);
        assert_eq!((c.state.index, c.state.fetched), (0x8002, [4, 8, 12]));
    }

    #[test]
    fn refusals_in_their_order() {
        let mut c = chip();
        for index in [0x0000, 0x000d, 0x000f, 0x3fff, 0x4400, 0x7fff, 0x8400, 0xc000, 0xffff] {
            at(&mut c, index);
            no(&mut c, 4, Call::Write { port: 6, data: 0 });
            no(&mut c, 4, Call::Read { port: 6 });
        }
        at(&mut c, 0x4000);
        no(&mut c, 4, Call::Read { port: 6 });
        at(&mut c, 0x8000);
        no(&mut c, 4, Call::Write { port: 6, data: 0 });
        for port in [0, 3, 7, 255] {
            no(&mut c, 3, Call::Write { port, data: 0 });
            no(&mut c, 3, Call::Read { port });
            no(&mut c, 3, Call::Look { place: 8 + u32::from(port) });
        }
        let set: [fn(&mut State); 6] = [
            |s| s.place = 3,
            |s| s.red = 1_024,
            |s| s.green = 1_024,
            |s| s.fetched[0] = 1_024,
            |s| s.fetched[1] = 1_024,
            |s| s.fetched[2] = 1_024,
        ];
        for set in set {
            let mut c = chip();
            set(&mut c.state);
            for port in [4, 5, 6, 7] {
                no(&mut c, 9, Call::Write { port, data: 0 });
                no(&mut c, 9, Call::Read { port });
                no(&mut c, 9, Call::Look { place: 4 + u32::from(port) });
                c.table.push(0);
                no(&mut c, 1, Call::Write { port, data: 0 });
                no(&mut c, 1, Call::Read { port });
                no(&mut c, 1, Call::Look { place: 4 + u32::from(port) });
                c.table.pop();
            }
            c.table.pop();
            no(&mut c, 1, Call::Read { port: 7 });
            assert_eq!(c.make(Call::Reset), DONE);
            assert_eq!(c.state, State::default());
        }
    }
}
