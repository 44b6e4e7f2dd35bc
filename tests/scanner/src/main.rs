//! Writes the samples of the scanner.
//!
//!     samples FOLDER

use std::path::Path;
use std::process::ExitCode;

fn main() -> ExitCode {
    let words: Vec<String> = std::env::args().skip(1).collect();
    let folder = match &words[..] {
        [folder] => Path::new(folder),
        _ => {
            eprintln!("samples takes the name of the folder that they go into");
            return ExitCode::from(2);
        }
    };
    for sample in samples::all() {
        let file = folder.join(sample.file());
        if let Err(error) = std::fs::write(&file, sample.written()) {
            eprintln!("{}: {error}", file.display());
            return ExitCode::FAILURE;
        }
    }
    ExitCode::SUCCESS
}
