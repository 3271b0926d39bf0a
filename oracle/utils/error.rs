/// The codes that the published files name, plus three of the oracle, so
/// that the harness can tell where an error came from.
#[derive(Debug, Clone, Copy, PartialEq, Eq)]
pub enum ErrorCode {
    AttributeNotFound,
    ConstraintError,
    Invalid,
    InvalidCommand,
    InvalidData,
    NoSpace,
    NotFound,
    TLVTypeMismatch,
    UnsupportedAccess,
    /// oracle only: `is_member` failed (fault 2)
    HostMembership,
    /// oracle only: `apply` failed (fault 4)
    HostApply,
    /// oracle only: with `--nullable-reduced`, an integer at the top of its range under `Nullable`
    NullableRange,
}

#[derive(Debug, Clone, PartialEq, Eq)]
pub struct Error {
    code: ErrorCode,
}

impl Error {
    pub const fn new(code: ErrorCode) -> Self {
        Self { code }
    }
    pub const fn code(&self) -> ErrorCode {
        self.code
    }
}

impl From<ErrorCode> for Error {
    fn from(code: ErrorCode) -> Self {
        Self::new(code)
    }
}

impl From<core::convert::Infallible> for Error {
    fn from(e: core::convert::Infallible) -> Self {
        match e {}
    }
}
