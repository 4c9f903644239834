//! The errors that the source returns.

#[derive(Clone, Copy, Debug)]
pub enum ErrorCode {
    InvalidCommand,
    InvalidInState,
    ConstraintError,
    InvalidData,
    Failure,
}

#[derive(Clone, Copy, Debug)]
pub struct Error(ErrorCode);

impl Error {
    pub fn new(code: ErrorCode) -> Self {
        Self(code)
    }
    pub fn code(&self) -> ErrorCode {
        self.0
    }
}

impl From<ErrorCode> for Error {
    fn from(code: ErrorCode) -> Self {
        Self(code)
    }
}

impl core::fmt::Display for Error {
    fn fmt(&self, f: &mut core::fmt::Formatter<'_>) -> core::fmt::Result {
        core::fmt::Debug::fmt(self, f)
    }
}
