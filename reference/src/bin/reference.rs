//! The reference program: reads a page from standard input and prints the lines of section 9.

use reference::lines;
use std::io::{self, Read, Write};

fn main() {
    let mut input = Vec::new();
    // Failures of the input or output device are outside the rules.
    let _ = io::stdin().read_to_end(&mut input);
    let printed = lines::print(&lines::run(&input));
    let mut output = io::stdout();
    let _ = output.write_all(printed.as_bytes());
    let _ = output.flush();
}
