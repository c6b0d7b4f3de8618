//! The worked cases of the rules (section 10, and the wave of section 5), checked against this library.

use crate::job;
use crate::lines;
use crate::measure::Measure;
use crate::page::{Order, Writer};
use crate::reduce::{reduce, Answer, Tables};
use crate::refusal::{by_tray, Refusal};
use crate::total::{Kind, Total};
use crate::tray::{Lifted, Point, Tray};

const HOOK: [(i32, i32, u32); 5] = [(0, 0, 0), (1, 4, 1), (2, 4, 2), (3, 3, 3), (4, 0, 4)];
const WAVE: [(i32, i32, u32); 5] = [(0, 0, 0), (1, 2, 1), (2, 0, 2), (3, -2, 3), (4, 0, 4)];

/// Chord, then the errors of the hook and of the wave: synchronous, distance, area.
const ERRORS: [(usize, usize, [u64; 3], [u64; 3]); 6] = [
    (1, 3, [4, 1, 4], [4, 4, 4]),
    (1, 4, [13, 5, 10], [9, 5, 8]),
    (1, 5, [41, 16, 22], [8, 4, 0]),
    (2, 4, [1, 1, 1], [0, 0, 0]),
    (2, 5, [5, 1, 6], [9, 5, 8]),
    (3, 5, [1, 1, 2], [4, 4, 4]),
];

const PAGE: &str = "
    04 00 01 00 07 00 00 00
    08 00 02 00 00 00 00 00 00 00 00 00
    08 00 02 00 01 00 04 00 01 00 00 00
    08 00 02 00 02 00 04 00 02 00 00 00
    08 00 02 00 03 00 03 00 03 00 00 00
    08 00 02 00 04 00 00 00 04 00 00 00
    0e 00 04 00 01 01 ff 1f 00 00 05 00 00 00 00 00 00 00
    04 00 01 00 08 00 00 00
    0e 00 04 00 01 01 ff 1f 00 00 05 00 00 00 00 00 00 00
    04 00 01 00 09 00 00 00
    08 00 02 00 00 00 00 00 00 00 00 00
    08 00 02 00 01 00 04 00 01 00 00 00
    08 00 02 00 02 00 04 00 02 00 00 00
    08 00 02 00 03 00 03 00 03 00 00 00
    08 00 02 00 04 00 00 00 04 00 00 00
    0e 00 04 00 01 03 ff 1f 00 00 05 00 00 00 00 00 00 00";

const ANSWER_PAGE: &str = "
    1a 00 05 00 07 00 00 00 05 00 00 00 00 00 00 00 00 00 00 00 00 00 00 00 01 00 02 00 05 00
    08 00 06 00 08 00 00 00 05 00 00 00
    1a 00 05 00 09 00 00 00 05 00 00 00 00 00 00 00 04 00 00 00 00 00 00 00 01 00 03 00 05 00";

const PAGE_LINES: &str = "stroke 7 kept 1 2 5 total 5
stroke 8 refused 5 at 0
stroke 9 kept 1 3 5 total 5 4
";

const SHORT_PAGES: [(&str, &str); 16] = [
    ("", ""),
    ("00", "page refused 11 at 0\n"),
    ("01 00 09 00", "page refused 11 at 0\n"),
    ("00 00 09 00", "page refused 12 at 0\n"),
    ("00 00 01 00", "page refused 13 at 0\n"),
    ("00 00 02 00", "page refused 13 at 0\n"),
    (
        "08 00 02 00 00 00 00 00 00 00 00 00",
        "page refused 14 at 0\n",
    ),
    ("04 00 01 00 07 00 00 00", "page refused 14 at 8\n"),
    ("04 00 01 00 07 00 00 00 00", "page refused 11 at 8\n"),
    (
        "04 00 01 00 07 00 00 00 04 00 01 00 08 00 00 00",
        "page refused 14 at 8\n",
    ),
    (
        "04 00 01 00 07 00 00 00
         0e 00 04 00 00 01 ff 1f 00 00 05 00 00 00 00 00 00 00",
        "page refused 15 at 8\n",
    ),
    (
        "04 00 01 00 07 00 00 00 08 00 02 00 00 10 00 00 00 00 00 00
         0e 00 04 00 01 01 ff 1f 00 00 05 00 00 00 00 00 00 00",
        "stroke 7 refused 1 at 1\n",
    ),
    (
        "04 00 01 00 07 00 00 00 08 00 02 00 00 10 00 00 00 00 00 00
         0e 00 04 00 01 04 ff 1f 00 00 05 00 00 00 00 00 00 00",
        "page refused 15 at 20\n",
    ),
    (
        "04 00 01 00 07 00 00 00
         0e 00 04 00 01 01 ff 1f 00 00 00 00 00 00 10 00 00 00",
        "stroke 7 refused 5 at 0\n",
    ),
    (
        "04 00 01 00 07 00 00 00 08 00 02 00 00 00 00 00 00 00 00 00
         0e 00 04 00 01 01 ff 1f 00 00 00 00 00 00 10 00 00 00",
        "stroke 7 refused 7 at 0\n",
    ),
    (
        "04 00 01 00 07 00 00 00 08 00 03 00 00 f0 ff 0f 00 00 00 00
         0e 00 04 00 01 03 00 00 00 00 00 00 00 00 00 00 00 00",
        "stroke 7 kept 1 total 0 0\n",
    ),
];

fn bytes(hexadecimal: &str) -> Vec<u8> {
    let byte = |word| u8::from_str_radix(word, 16).expect("two hexadecimal digits");
    hexadecimal.split_whitespace().map(byte).collect()
}

fn stroke(points: &[(i32, i32, u32)]) -> Lifted {
    let mut tray = Tray::new();
    for &(x, y, t) in points {
        tray.put(x, y, t).expect("a lawful point");
    }
    tray.lift()
}

fn span(s: u32) -> Measure {
    Measure::Span(s, Box::new(Measure::Synchronous))
}

/// Pairs of numbers as totals.
fn totals(pairs: &[(u64, u64)]) -> Vec<Total> {
    pairs
        .iter()
        .map(|&(first, second)| Total { first, second })
        .collect()
}

/// Counts the cases and tells the first that differs.
struct Checks {
    done: usize,
}

impl Checks {
    fn same<T: PartialEq + std::fmt::Debug>(
        &mut self,
        what: &str,
        found: T,
        rules: T,
    ) -> Result<(), String> {
        self.done += 1;
        if found == rules {
            Ok(())
        } else {
            Err(format!("{what}: found {found:?}, the rules say {rules:?}"))
        }
    }
}

/// Checks every worked case. Answers how many were checked, or the first that differs.
pub fn check() -> Result<usize, String> {
    let mut checks = Checks { done: 0 };
    check_errors(&mut checks)?;
    check_reducing(&mut checks)?;
    check_tables(&mut checks)?;
    check_pages(&mut checks)?;
    Ok(checks.done)
}

fn check_errors(checks: &mut Checks) -> Result<(), String> {
    let (hook, wave) = (stroke(&HOOK), stroke(&WAVE));
    for code in 1..=3 {
        let measure = Measure::from_code(code).expect("a lawful code");
        let at = code as usize - 1;
        for (i, j, hook_errors, wave_errors) in ERRORS {
            let what = format!("chord {i} to {j}, measure {code}");
            checks.same(&what, measure.error(&hook, i, j), Some(hook_errors[at]))?;
            checks.same(&what, measure.error(&wave, i, j), Some(wave_errors[at]))?;
        }
        for i in 1..5 {
            let what = format!("neighbours {i} and {}, measure {code}", i + 1);
            checks.same(&what, measure.error(&hook, i, i + 1), Some(0))?;
            checks.same(&what, measure.error(&wave, i, i + 1), Some(0))?;
        }
    }
    Ok(())
}

/// The kept numbers and the total, with a list of the given room.
fn kept(
    stroke: &Lifted,
    measure: &Measure,
    kind: Kind,
    tolerance: u64,
    room: usize,
) -> Result<(Vec<u16>, (u64, u64)), Refusal> {
    let mut tables = Tables::for_any_stroke();
    let mut list = vec![0; room];
    let Answer { count, total } = reduce(stroke, measure, kind, tolerance, &mut tables, &mut list)?;
    Ok((list[..count].to_vec(), (total.first, total.second)))
}

fn check_reducing(checks: &mut Checks) -> Result<(), String> {
    let hook = stroke(&HOOK);
    let first = stroke(&HOOK[..1]);
    let mut cornered = stroke(&HOOK);
    cornered.mark(4).expect("point 4");
    let bare = Measure::Synchronous;
    let corners = Measure::Corners(Box::new(Measure::Synchronous));
    let (sum, worst, both) = (Kind::Sum, Kind::Worst, Kind::SumThenWorst);
    let cases = [
        (
            "sum, 5",
            kept(&hook, &bare, sum, 5, 5),
            Ok((vec![1, 2, 5], (5, 0))),
        ),
        (
            "worst, 5",
            kept(&hook, &bare, worst, 5, 5),
            Ok((vec![1, 3, 5], (4, 0))),
        ),
        (
            "sum then worst, 5",
            kept(&hook, &bare, both, 5, 5),
            Ok((vec![1, 3, 5], (5, 4))),
        ),
        (
            "sum, 41",
            kept(&hook, &bare, sum, 41, 5),
            Ok((vec![1, 5], (41, 0))),
        ),
        (
            "sum, 40",
            kept(&hook, &bare, sum, 40, 5),
            Ok((vec![1, 2, 5], (5, 0))),
        ),
        (
            "sum, 0",
            kept(&hook, &bare, sum, 0, 5),
            Ok((vec![1, 2, 3, 4, 5], (0, 0))),
        ),
        (
            "corner 4",
            kept(&cornered, &corners, sum, 5, 5),
            Ok((vec![1, 2, 4, 5], (1, 0))),
        ),
        (
            "span 1",
            kept(&hook, &span(1), sum, 5, 5),
            Ok((vec![1, 2, 3, 4, 5], (0, 0))),
        ),
        (
            "span 0",
            kept(&hook, &span(0), sum, 5, 5),
            Err(by_tray(9, 5)),
        ),
        (
            "only point 1",
            kept(&first, &span(0), sum, 5, 5),
            Ok((vec![1], (0, 0))),
        ),
        (
            "list of 3",
            kept(&hook, &bare, sum, 5, 3),
            Ok((vec![1, 2, 5], (5, 0))),
        ),
        (
            "list of 2",
            kept(&hook, &bare, sum, 5, 2),
            Err(by_tray(10, 3)),
        ),
    ];
    for (what, found, rules) in cases {
        checks.same(what, found, rules)?;
    }
    let wave = kept(&stroke(&WAVE), &Measure::Area, sum, 0, 5);
    checks.same("the wave, area, 0", wave, Ok((vec![1, 5], (0, 0))))
}

fn check_tables(checks: &mut Checks) -> Result<(), String> {
    let hook = stroke(&HOOK);
    let mut cornered = stroke(&HOOK);
    cornered.mark(4).expect("point 4");
    let bare = Measure::Synchronous;
    let corners = Measure::Corners(Box::new(Measure::Synchronous));
    let zero = (0, 0);
    let cases = [
        (
            (&hook, &bare, Kind::Sum),
            [0, 1, 1, 2, 2],
            [0, 1, 1, 2, 2],
            [zero, zero, (4, 0), (1, 0), (5, 0)],
        ),
        (
            (&hook, &bare, Kind::Worst),
            [0, 1, 1, 2, 2],
            [0, 1, 1, 2, 3],
            [zero, zero, (4, 0), (1, 0), (4, 0)],
        ),
        (
            (&hook, &bare, Kind::SumThenWorst),
            [0, 1, 1, 2, 2],
            [0, 1, 1, 2, 3],
            [zero, zero, (4, 4), (1, 1), (5, 4)],
        ),
        (
            (&cornered, &corners, Kind::Sum),
            [0, 1, 1, 2, 3],
            [0, 1, 1, 2, 4],
            [zero, zero, (4, 0), (1, 0), (1, 0)],
        ),
        ((&hook, &span(0), Kind::Sum), [0; 5], [0; 5], [zero; 5]),
    ];
    for ((stroke, measure, kind), counts, predecessors, pairs) in cases {
        let mut tables = Tables::new(5);
        // Only the tables are looked at here; the answers have their own cases.
        let _ = reduce(stroke, measure, kind, 5, &mut tables, &mut [0; 5]);
        let rules = Tables {
            counts: counts.to_vec(),
            predecessors: predecessors.to_vec(),
            totals: totals(&pairs),
        };
        checks.same("tables", tables, rules)?;
    }
    Ok(())
}

fn printed(page: &[u8]) -> String {
    lines::print(&lines::run(page))
}

fn check_pages(checks: &mut Checks) -> Result<(), String> {
    let page = bytes(PAGE);
    checks.same("length of the page", page.len(), 198)?;

    let hook = HOOK.map(|(x, y, t)| Point {
        x,
        y,
        t,
        corner: false,
    });
    let order = Order {
        measure: 1,
        total: 1,
        span: 8_191,
        tolerance: 5,
    };
    let mut writer = Writer::new(198);
    checks.same("writing 7", writer.write(7, &hook, &order), Ok(86))?;
    checks.same("writing 8", writer.write(8, &[], &order), Ok(112))?;
    let order = Order { total: 3, ..order };
    checks.same("writing 9", writer.write(9, &hook, &order), Ok(198))?;
    checks.same("written page", writer.bytes(), &page[..])?;

    let mut answer = Writer::new(72);
    let report = job::run(&page, &mut answer);
    checks.same("strokes of the job", report.strokes.len(), 3)?;
    checks.same("refusal of the job", report.refusal, None)?;
    checks.same("answer page", answer.bytes(), &bytes(ANSWER_PAGE)[..])?;
    checks.same("lines of the page", printed(&page), PAGE_LINES.to_string())?;

    for (input, rules) in SHORT_PAGES {
        checks.same(input, printed(&bytes(input)), rules.to_string())?;
    }
    let trailing = [&page[..], &[0]].concat();
    let rules = PAGE_LINES.to_string() + "page refused 11 at 198\n";
    checks.same("the page, then 00", printed(&trailing), rules)
}

#[cfg(test)]
mod tests {
    #[test]
    fn worked_cases() {
        assert_eq!(super::check(), Ok(60 + 13 + 5 + 26));
    }
}
