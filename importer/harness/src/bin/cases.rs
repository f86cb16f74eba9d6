//! Writes the files of `reduce` and `cases`, and what is printed for them, under the directory of
//! the crates, which is given.

use std::fs;
use std::path::Path;
use std::process::ExitCode;

fn write(path: &Path, bytes: &[u8]) -> std::io::Result<()> {
    fs::create_dir_all(path.parent().expect("a file's directory"))?;
    fs::write(path, bytes)
}

fn main() -> ExitCode {
    let Some(crates) = std::env::args_os().nth(1) else {
        eprintln!("usage: cases DIRECTORY");
        return ExitCode::from(2);
    };
    for (place, bytes) in harness::cases::stored() {
        let path = Path::new(&crates).join(place);
        if let Err(error) = write(&path, &bytes) {
            eprintln!("cases: {}: {error}", path.display());
            return ExitCode::FAILURE;
        }
    }
    ExitCode::SUCCESS
}
