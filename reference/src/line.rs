//! The answer to one event, and its printed form.

use crate::RECORD;

/// What one event came to. After a refusal the other numbers are 0.
#[derive(Clone, Copy, Debug, PartialEq, Eq)]
pub struct Line {
    pub refusal: u8,
    pub mode: u8,
    pub partition: u8,
    pub thread: u8,
}

impl Line {
    /// The line of a refusal.
    pub const fn refused(refusal: u8) -> Line {
        Line {
            refusal,
            mode: 0,
            partition: 0,
            thread: 0,
        }
    }

    /// Writes `rr m pp ttt` and a line feed.
    #[inline]
    pub fn write(&self, out: &mut [u8; RECORD]) {
        let Line {
            refusal,
            mode,
            partition,
            thread,
        } = *self;
        *out = [
            digit(refusal / 10),
            digit(refusal),
            b' ',
            digit(mode),
            b' ',
            digit(partition / 10),
            digit(partition),
            b' ',
            digit(thread / 100),
            digit(thread / 10),
            digit(thread),
            b'\n',
        ];
    }
}

/// The last decimal digit of a number.
#[inline]
fn digit(n: u8) -> u8 {
    b'0' + n % 10
}
