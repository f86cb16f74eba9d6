//! A stand-in for the two names that the carried-over code takes from `anyhow`.

/// No carried-over function makes an error, so there is none to hold.
#[derive(Debug)]
pub enum Error {}

pub type Result<T> = core::result::Result<T, Error>;
