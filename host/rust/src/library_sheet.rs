//! The sheet's calls of the proved library. The answer is one number: refusal in bits 0 to 7, value 16 to 31, count 32
//! to 47, line 48 to 63.
use crate::answer::Answer;
use crate::chip_a::Chip;
use crate::library_a::{state_in, LibState};

#[rustfmt::skip]
extern "C" {
    fn zk_sheet_to_calls(sheet: *const u8, n: usize, out: *mut u8, m: usize) -> u64;
    fn zk_sheet_write(
        s: LibState, colours: *const u8, n: usize, overlays: *const u8, m: usize, out: *mut u8, k: usize,
    ) -> u64;
}

fn read(answer: u64) -> Answer {
    assert_eq!(answer >> 8 & 0xff, 0, "the spare bits of {:#x}", answer);
    Answer {
        refusal: answer as u8,
        value: (answer >> 16) as u16,
        count: (answer >> 32) as u32 & 0xffff,
        line: (answer >> 48) as u32,
        colour: [0; 3],
    }
}

pub fn to_calls(text: &[u8], buffer: &mut [u8]) -> Answer {
    read(unsafe { zk_sheet_to_calls(text.as_ptr(), text.len(), buffer.as_mut_ptr(), buffer.len()) })
}

pub fn from_chip(c: &Chip, buffer: &mut [u8]) -> Answer {
    let (colours, overlays) = (&c.colours, &c.overlays);
    read(unsafe {
        zk_sheet_write(
            state_in(c.state),
            colours.as_ptr(),
            colours.len(),
            overlays.as_ptr(),
            overlays.len(),
            buffer.as_mut_ptr(),
            buffer.len(),
        )
    })
}
