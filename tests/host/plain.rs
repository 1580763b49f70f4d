//! How tokens are equal to what tests or measures the library, of whose own comparison that is to be independent.

use crate::ffi::{ResetToken, Token};

impl PartialEq for Token {
    fn eq(&self, other: &Token) -> bool {
        self.present == other.present && self.bytes == other.bytes
    }
}

impl PartialEq for ResetToken {
    fn eq(&self, other: &ResetToken) -> bool {
        self.bytes == other.bytes
    }
}
