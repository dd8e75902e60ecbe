//! Stands in for the published crate's errors.

pub type InquireResult<T> = Result<T, std::io::Error>;
