//! What a call answers, apart from the state and the tables that it leaves.
//!
//! Document 01, "The nine refusals", decides: a refusal has every value and count 0, and the line where it is 8.

#[derive(Clone, Copy, Debug, Default, PartialEq, Eq)]
pub struct Answer {
    /// 0 if accepted, else document 01's number.
    pub refusal: u8,
    /// What a read, a look, the timing signals or the expander answer.
    pub value: u16,
    /// Entries moved, calls listed or bytes written.
    pub count: u32,
    /// The first bad or missing line of a sheet.
    pub line: u32,
    /// What a pixel shows: red, green, blue.
    pub colour: [u8; 3],
}

pub const DONE: Answer = Answer { refusal: 0, value: 0, count: 0, line: 0, colour: [0; 3] };

pub fn refused(refusal: u8) -> Answer {
    Answer { refusal, ..DONE }
}

pub fn value(value: impl Into<u16>) -> Answer {
    Answer { value: value.into(), ..DONE }
}

pub fn count(count: usize) -> Answer {
    Answer { count: count as u32, ..DONE }
}

pub fn colour(colour: [u8; 3]) -> Answer {
    Answer { colour, ..DONE }
}
