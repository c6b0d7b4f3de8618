//! The program's lines (section 9).

use crate::job::{self, Appended, Outcome, Report};
use crate::page::Writer;
use crate::refusal::{by_program, Layer, Refusal};
use crate::total::Kind;

/// The most bytes of a page that the program takes, and the room of its answer page.
pub const MOST_BYTES: usize = 65_536;

/// What the program does with its input: a report of the job, or its own refusal.
pub fn run(input: &[u8]) -> Report {
    if input.len() > MOST_BYTES {
        return Report {
            strokes: Vec::new(),
            refusal: Some(by_program(17, MOST_BYTES)),
        };
    }
    job::run(input, &mut Writer::new(MOST_BYTES))
}

/// Everything that the program prints for a report.
pub fn print(report: &Report) -> String {
    let strokes = report.strokes.iter().map(stroke_line);
    let refusal = report.refusal.iter().map(refusal_line);
    strokes.chain(refusal).map(|line| line + "\n").collect()
}

fn stroke_line(stroke: &Appended) -> String {
    let number = stroke.number;
    match &stroke.outcome {
        Outcome::Kept {
            numbers,
            kind,
            total,
        } => {
            let numbers: Vec<String> = numbers.iter().map(u16::to_string).collect();
            let numbers = numbers.join(" ");
            let total = match kind {
                Kind::Sum | Kind::Worst => total.first.to_string(),
                Kind::SumThenWorst => format!("{} {}", total.first, total.second),
            };
            format!("stroke {number} kept {numbers} total {total}")
        }
        Outcome::Refused(refusal) => {
            format!(
                "stroke {number} refused {} at {}",
                refusal.number, refusal.place
            )
        }
    }
}

fn refusal_line(refusal: &Refusal) -> String {
    let who = match refusal.layer {
        Layer::Tray => "stroke",
        Layer::Page => "page",
        Layer::Program => "program",
    };
    format!("{who} refused {} at {}", refusal.number, refusal.place)
}

#[cfg(test)]
mod tests {
    use super::*;

    #[test]
    fn long_pages() {
        for length in [65_537, 65_538, 200_000] {
            assert_eq!(
                print(&run(&vec![0; length])),
                "program refused 17 at 65536\n"
            );
        }
        assert_eq!(print(&run(&vec![0; 65_536])), "page refused 12 at 0\n");
    }
}
