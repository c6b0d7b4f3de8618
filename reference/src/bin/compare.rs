//! The comparison: `compare PROGRAM [PAGES] [SEED]` runs a program on made pages and compares what it prints with the reference.

use reference::generate::{self, DEFAULT_PAGES, DEFAULT_SEED};
use reference::job::Outcome;
use reference::{lines, worked};
use std::io::Write;
use std::process::{Command, ExitCode, Output, Stdio};
use std::{env, fs, io, thread};

fn main() -> ExitCode {
    let arguments: Vec<String> = env::args().skip(1).collect();
    let Some((program, pages, seed)) = understood(&arguments) else {
        eprintln!("usage: compare PROGRAM [PAGES] [SEED]");
        return ExitCode::from(2);
    };
    match worked::check() {
        Ok(cases) => println!("the reference agrees with {cases} worked cases"),
        Err(difference) => {
            println!("the reference differs from a worked case: {difference}");
            return ExitCode::FAILURE;
        }
    }
    compare(program, pages, seed)
}

fn understood(arguments: &[String]) -> Option<(&str, u64, u64)> {
    let number = |at: usize, default: u64| match arguments.get(at) {
        Some(text) => text.parse().ok(),
        None => Some(default),
    };
    if arguments.len() > 3 {
        return None;
    }
    Some((
        arguments.first()?,
        number(1, DEFAULT_PAGES)?,
        number(2, DEFAULT_SEED)?,
    ))
}

fn compare(program: &str, pages: u64, seed: u64) -> ExitCode {
    let (mut bytes, mut kept, mut refused, mut refused_pages) = (0, 0, 0, 0);
    for number in 0..pages {
        let page = generate::page(seed, number);
        let report = lines::run(&page);
        let expected = lines::print(&report);
        let output = match run(program, &page) {
            Ok(output) => output,
            Err(error) => {
                eprintln!("cannot run {program}: {error}");
                return ExitCode::from(2);
            }
        };
        if output.stdout != expected.as_bytes() || output.status.code() != Some(0) {
            tell_difference(number, seed, &page, expected.as_bytes(), &output);
            return ExitCode::FAILURE;
        }
        bytes += page.len();
        for stroke in &report.strokes {
            match stroke.outcome {
                Outcome::Kept { .. } => kept += 1,
                Outcome::Refused(_) => refused += 1,
            }
        }
        refused_pages += usize::from(report.refusal.is_some());
    }
    println!(
        "compared {pages} pages ({bytes} bytes, {kept} strokes kept, {refused} refused, \
         {refused_pages} pages refused): no difference"
    );
    ExitCode::SUCCESS
}

/// Runs the program with the page as its standard input. A thread writes the
/// page while the output is read, so that neither side waits for the other.
fn run(program: &str, page: &[u8]) -> io::Result<Output> {
    let mut child = Command::new(program)
        .stdin(Stdio::piped())
        .stdout(Stdio::piped())
        .spawn()?;
    let mut input = child.stdin.take().expect("standard input is a pipe");
    thread::scope(|scope| {
        // A program may stop reading early; its lines and status are compared all the same.
        scope.spawn(move || {
            let _ = input.write_all(page);
        });
        child.wait_with_output()
    })
}

fn tell_difference(number: u64, seed: u64, page: &[u8], expected: &[u8], output: &Output) {
    println!("page {number} of seed {seed} differs");
    let mut ours = expected.split_inclusive(|&b| b == b'\n');
    let mut theirs = output.stdout.split_inclusive(|&b| b == b'\n');
    let mut line = 1;
    loop {
        match (ours.next(), theirs.next()) {
            (None, None) => break,
            (a, b) if a == b => line += 1,
            (a, b) => {
                println!("line {line} of the reference: {}", shown(a));
                println!("line {line} of the program:   {}", shown(b));
                break;
            }
        }
    }
    if output.status.code() != Some(0) {
        println!("the program ended with {}", output.status);
    }
    let file = env::temp_dir().join(format!("reference-page-{seed}-{number}.bin"));
    match fs::write(&file, page) {
        Ok(()) => println!("the page is in {}", file.display()),
        Err(error) => println!("the page cannot be written to {}: {error}", file.display()),
    }
}

fn shown(line: Option<&[u8]>) -> String {
    match line {
        Some(bytes) => format!("{:?}", String::from_utf8_lossy(bytes)),
        None => "(none)".to_string(),
    }
}
