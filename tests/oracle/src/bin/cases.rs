//! Runs every case of a folder (`NNNNN.in`) and compares with its right
//! output (`NNNNN.out`) byte for byte.

use std::path::{Path, PathBuf};
use std::process::ExitCode;
use std::{env, fs, io};

fn main() -> io::Result<ExitCode> {
    let default = Path::new(env!("CARGO_MANIFEST_DIR")).join("../cases");
    let folder = env::args_os().nth(1).map_or(default, PathBuf::from);
    let inputs = inputs(&folder)?;
    let mut failed = 0;
    for input in &inputs {
        if let Some(mismatch) = mismatch(input)? {
            failed += 1;
            println!("{mismatch}");
        }
    }
    println!("cases: {} passed, {failed} failed", inputs.len() - failed);
    let good = failed == 0 && !inputs.is_empty();
    Ok(if good {
        ExitCode::SUCCESS
    } else {
        ExitCode::FAILURE
    })
}

/// The input files of a folder, sorted.
fn inputs(folder: &Path) -> io::Result<Vec<PathBuf>> {
    let mut inputs = Vec::new();
    for entry in fs::read_dir(folder)? {
        let path = entry?.path();
        if path.extension().is_some_and(|extension| extension == "in") {
            inputs.push(path);
        }
    }
    inputs.sort();
    Ok(inputs)
}

/// Runs one case; says what differs, if anything.
fn mismatch(input: &Path) -> io::Result<Option<String>> {
    let right = fs::read(input.with_extension("out"))?;
    let mut given = Vec::new();
    oracle::runner::run(fs::read(input)?.as_slice(), &mut given)?;
    let name = input.file_stem().unwrap_or_default().to_string_lossy();
    Ok((given != right).then(|| {
        let (given, right) = (
            String::from_utf8_lossy(&given),
            String::from_utf8_lossy(&right),
        );
        format!("{name}: mismatch\n--- given\n{given}--- right\n{right}---")
    }))
}
