//! The cab program as a process, beside a program that only reads the same line and files.

use crate::networks::Question;
use crate::queries::ask;
use crate::times::Times;
use std::ffi::OsStr;
use std::fs;
use std::io::Write;
use std::path::{Path, PathBuf};
use std::process::{Command, Output, Stdio};
use std::time::Instant;

/// How often each program is run.
const RUNS: usize = 101;

/// A folder that is removed in the end.
pub struct Folder(pub PathBuf);

/// Times both programs in turn in a folder with the files of the question, and prints a table.
pub fn compare(question: &Question, plan: &str, reads: &str) -> Result<(), String> {
    let folder = Folder::with(question)?;
    let line = question.line();
    let programs = [found(plan)?, found(reads)?];
    let answer = ask(question, sedge::best_route, &mut question.list());
    let written = run(&programs[0], &folder.0, &line, &[])?.stdout;
    if !written.starts_with(format!("arrival {}\n", answer.arrival).as_bytes()) {
        return Err(format!("plan differs: {}", String::from_utf8_lossy(&written)));
    }
    let mut taken = [(); 2].map(|_| Vec::new());
    for _ in 0..RUNS {
        for (program, taken) in programs.iter().zip(&mut taken) {
            let begun = Instant::now();
            run(program, &folder.0, &line, &[])?;
            taken.push(begun.elapsed());
        }
    }
    let [plan, reads] = taken.map(|taken| Times::of(&[taken]));
    println!("The cab program as a process on full-size hill in microseconds: the median and the least of {RUNS}.");
    println!();
    println!("{:38} {plan}", "plan");
    println!("{:38} {reads}", "a C program that only reads");
    println!("{:38} {:7.2} {:7.2}", "difference", plan.median - reads.median, plan.least - reads.least);
    Ok(())
}

/// The whole path of a file, which must be there.
pub fn found(path: &str) -> Result<PathBuf, String> {
    fs::canonicalize(path).map_err(|e| format!("{path}: {e}"))
}

/// Runs the program in the folder with this line on its standard input and these variables in its environment; what it
/// wrote.
pub fn run(program: &Path, folder: &Path, line: &str, variables: &[(&str, &OsStr)]) -> Result<Output, String> {
    let failed = |e: std::io::Error| format!("{}: {e}", program.display());
    let mut child = Command::new(program)
        .current_dir(folder)
        .envs(variables.iter().copied())
        .stdin(Stdio::piped())
        .stdout(Stdio::piped())
        .stderr(Stdio::piped())
        .spawn()
        .map_err(failed)?;
    if let Some(mut stdin) = child.stdin.take() {
        stdin.write_all(line.as_bytes()).map_err(failed)?;
    }
    child.wait_with_output().map_err(failed)
}

impl Folder {
    /// A new folder with the two files.
    pub fn with(question: &Question) -> Result<Folder, String> {
        let folder = Folder(std::env::temp_dir().join(format!("sedge-bench-{}", std::process::id())));
        let files = question.files();
        fs::create_dir_all(&folder.0)
            .and_then(|()| fs::write(folder.0.join("nodes.bin"), files.nodes))
            .and_then(|()| fs::write(folder.0.join("roads.bin"), files.roads))
            .map_err(|e| format!("{}: {e}", folder.0.display()))?;
        Ok(folder)
    }
}

impl Drop for Folder {
    fn drop(&mut self) {
        if let Err(e) = fs::remove_dir_all(&self.0) {
            eprintln!("{}: {e}", self.0.display());
        }
    }
}
