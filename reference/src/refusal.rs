//! Refusals: a number and one detail ("Who can bring a number about").

/// Why a call gave no answer. What the detail means depends on the number.
#[derive(Clone, Copy, Debug, PartialEq, Eq, Hash)]
pub struct Refusal {
    pub number: u32,
    pub detail: u64,
}

impl Refusal {
    pub const BYTES_MISSING: u32 = 1;
    pub const VERSION: u32 = 2;
    pub const COUNT: u32 = 3;
    pub const SECTION_LENGTH: u32 = 4;
    pub const BYTES_LEFT_OVER: u32 = 5;
    pub const RECORD: u32 = 6;
    pub const INSTRUCTION: u32 = 7;
    pub const NESTING: u32 = 8;
    pub const ACCESS: u32 = 9;
    pub const TAKE_OF_HELD: u32 = 10;
    pub const GIVE_OF_NOT_HELD: u32 = 11;
    pub const SETS_DIFFER: u32 = 12;
    pub const BLOCK_IS_T: u32 = 13;
    pub const LIST_TOO_LONG: u32 = 14;
    pub const THREAD_NUMBER: u32 = 15;
    pub const BUFFER_TOO_SHORT: u32 = 16;
    pub const NO_SUCH_LINE: u32 = 17;
    pub const FALSE_STATEMENT: u32 = 18;

    /// Whether the program's writer brought it about: a file that gets it is sound.
    pub fn is_writers(self) -> bool {
        matches!(
            self.number,
            Self::ACCESS..=Self::BLOCK_IS_T | Self::FALSE_STATEMENT
        )
    }

    pub(crate) fn new(number: u32, detail: usize) -> Self {
        Refusal {
            number,
            detail: detail as u64,
        }
    }
}

/// Refuses a buffer shorter than the call needs.
pub(crate) fn check_buffer(out: &[u8], needed: usize) -> Result<(), Refusal> {
    if out.len() < needed {
        return Err(Refusal::new(Refusal::BUFFER_TOO_SHORT, needed));
    }
    Ok(())
}
