//! The C calls of the static library, as `include/sideboardjay.h` declares them.

use crate::refusal::{Layer, Refusal};

#[repr(C)]
#[derive(Clone, Copy, Debug, PartialEq, Eq)]
struct Answer {
    layer: u32,
    number: u32,
    place: u64,
}

#[repr(C)]
#[derive(Clone, Copy, Debug, PartialEq, Eq)]
struct Counted {
    answer: Answer,
    count: u64,
}

extern "C" {
    fn tablet_look(file: *const u8, file_length: usize) -> Answer;
    fn tablet_judge(file: *const u8, file_length: usize, row: *const u8, row_length: usize) -> Answer;
    fn tablet_shared(a: *const u8, a_length: usize, b: *const u8, b_length: usize) -> Counted;
}

impl Answer {
    fn result(self) -> Result<(), Refusal> {
        let layer = match self.layer {
            0 if self.number == 0 && self.place == 0 => return Ok(()),
            1 => Layer::File,
            2 => Layer::Plan,
            3 => Layer::Box,
            _ => unreachable!("the contracts rule out the answer {self:?}"),
        };
        Err(Refusal {
            layer,
            number: self.number,
            place: self.place,
        })
    }
}

/// Looks over a plan file; a refusal is its first fault.
pub fn look(file: &[u8]) -> Result<(), Refusal> {
    // SAFETY: the pointer and the length are those of one slice, which the call reads and does not keep.
    unsafe { tablet_look(file.as_ptr(), file.len()) }.result()
}

/// Accepts a row that is a route of the plan in the file. A file that [`look`] refuses has no components.
pub fn judge(file: &[u8], row: &[u8]) -> Result<(), Refusal> {
    // SAFETY: as in `look`, for both slices.
    unsafe { tablet_judge(file.as_ptr(), file.len(), row.as_ptr(), row.len()) }.result()
}

/// How many components both rows have, each counted once.
pub fn shared(a: &[u8], b: &[u8]) -> Result<u64, Refusal> {
    // SAFETY: as in `look`, for both slices.
    let counted = unsafe { tablet_shared(a.as_ptr(), a.len(), b.as_ptr(), b.len()) };
    counted.answer.result().map(|()| counted.count)
}

#[cfg(test)]
mod tests {
    use super::*;
    use std::ptr::null;

    const NOT_A_ROW: Answer = Answer {
        layer: 3,
        number: 14,
        place: 0,
    };

    #[test]
    fn null_of_no_length_is_the_empty_string() {
        let cut_off = Answer {
            layer: 1,
            number: 1,
            place: 0,
        };
        let none = Counted {
            answer: NOT_A_ROW,
            count: 0,
        };
        // SAFETY: the calls take null for no bytes.
        unsafe {
            assert_eq!(tablet_look(null(), 0), cut_off);
            assert_eq!(tablet_judge(null(), 0, null(), 0), NOT_A_ROW);
            assert_eq!(tablet_shared(null(), 0, null(), 0), none);
        }
    }

    #[test]
    fn a_refusal_counts_nothing() {
        let row = [2, 0, 0, 0, 4, 0];
        // SAFETY: each pointer comes with the length of its array.
        let counted = unsafe { tablet_shared(row.as_ptr(), row.len(), row.as_ptr(), row.len() - 1) };
        assert_eq!(
            counted,
            Counted {
                answer: NOT_A_ROW,
                count: 0
            }
        );
    }

    #[test]
    fn accepted_is_all_zero() {
        let accepted = Answer {
            layer: 0,
            number: 0,
            place: 0,
        };
        let empty = [0; 8];
        // SAFETY: the pointer comes with the length of its array.
        assert_eq!(unsafe { tablet_look(empty.as_ptr(), empty.len()) }, accepted);
    }
}
