//! Writes the stored answers to the path that is given.

use std::process::ExitCode;

fn main() -> ExitCode {
    let Some(path) = std::env::args_os().nth(1) else {
        eprintln!("usage: vectors PATH");
        return ExitCode::from(2);
    };
    match std::fs::write(&path, harness::vectors::file()) {
        Ok(()) => ExitCode::SUCCESS,
        Err(error) => {
            eprintln!("vectors: {}: {error}", path.to_string_lossy());
            ExitCode::FAILURE
        }
    }
}
