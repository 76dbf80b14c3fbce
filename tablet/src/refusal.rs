//! Refusals, and what they mean in words.

use std::error::Error;
use std::fmt;

/// Who refuses.
#[derive(Clone, Copy, Debug, PartialEq, Eq)]
pub enum Layer {
    /// The first reading of a file.
    File,
    /// The second reading of a file.
    Plan,
    /// Rows.
    Box,
}

/// Why a call refused.
#[derive(Clone, Copy, Debug, PartialEq, Eq)]
pub struct Refusal {
    pub layer: Layer,
    pub number: u32,
    pub place: u64,
}

impl Refusal {
    /// What the number means.
    pub fn meaning(&self) -> &'static str {
        match self.number {
            1 => "a count or a record is cut off",
            2 => "bytes follow the last section",
            3 => "more than 512 components or point sections",
            4 => "a letter is neither E nor W",
            5 => "a field names a port or point section that does not exist",
            6 => "connected ports face the same way or belong to one component",
            7 => "the far port does not name this port",
            9 => "a port of a switch is blank",
            10 => "a point section's record is 0 or not the number of its switches",
            14 => "the bytes have not the shape of a row",
            15 => "the row is no route of the plan",
            _ => "a refusal that these calls do not have",
        }
    }
}

impl fmt::Display for Refusal {
    fn fmt(&self, f: &mut fmt::Formatter<'_>) -> fmt::Result {
        write!(f, "refused {}", self.number)?;
        match self.layer {
            Layer::File | Layer::Plan => write!(f, " at byte {}", self.place)?,
            Layer::Box if self.number == 15 => write!(f, " at entry {}", self.place)?,
            Layer::Box => {}
        }
        write!(f, ": {}", self.meaning())
    }
}

impl Error for Refusal {}
