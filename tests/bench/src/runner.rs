//! The program's speed.

use crate::looping::Looping;
use std::fs::{self, File};
use std::path::Path;
use std::process::{Command, Stdio};
use std::time::Instant;

const REPETITIONS: usize = 9;

/// Times the program on a run, its output thrown away.
pub fn time(run: &Looping, count: usize) {
    let program = Path::new(env!("CARGO_MANIFEST_DIR")).join("../../target/bin/runner");
    if !program.exists() {
        println!("\nThe program is not there: tools/build runner makes it.");
        return;
    }
    let mut input = run.table.clone();
    for choice in &run.choices[..count] {
        input.extend([choice.kind as u8, choice.thread as u8]);
    }
    let name = format!("runner-{}.in", std::process::id());
    let path = std::env::temp_dir().join(name);
    fs::write(&path, &input).expect("a temporary file");
    let mut best = f64::MAX;
    for _ in 0..REPETITIONS {
        let stdin = File::open(&path).expect("the temporary file");
        let begin = Instant::now();
        let status = Command::new(&program)
            .stdin(stdin)
            .stdout(Stdio::null())
            .status();
        assert!(status.expect("the program runs").success());
        best = best.min(begin.elapsed().as_secs_f64());
    }
    fs::remove_file(&path).expect("the temporary file");
    println!(
        "\nThe program, {}: {count} choices in {:.0} ms, {:.1} million a second.",
        run.name(),
        best * 1e3,
        count as f64 / best / 1e6
    );
}
