//! Why a case cannot be read.

use std::fmt;

/// Why a case cannot be read.
#[derive(Clone, Copy, Debug)]
pub struct Unreadable(pub &'static str);

impl fmt::Display for Unreadable {
    fn fmt(&self, formatter: &mut fmt::Formatter<'_>) -> fmt::Result {
        formatter.write_str(self.0)
    }
}
