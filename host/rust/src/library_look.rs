//! What a look of the proved library answers, on each chip.
use crate::answer::{value, Answer};

#[repr(C)]
pub struct LibLooked {
    refusal: u8,
    value: u16,
}

impl LibLooked {
    /// Refusal and value, 0 where refused.
    pub fn told(self) -> Answer {
        Answer { refusal: self.refusal, ..value(self.value) }
    }
}
