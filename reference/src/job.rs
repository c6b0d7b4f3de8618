//! The job: reduces every stroke of a page and appends its results to an answer page (section 8).

use crate::measure::Measure;
use crate::page::{record_bytes, Order, Reader, Record, Writer};
use crate::reduce::{reduce, Tables};
use crate::refusal::Refusal;
use crate::total::{Kind, Total};
use crate::tray::{Point, Tray, MOST_POINTS};

#[derive(Clone, Debug, PartialEq, Eq)]
pub enum Outcome {
    Kept {
        numbers: Vec<u16>,
        kind: Kind,
        total: Total,
    },
    Refused(Refusal),
}

/// The result of one stroke that was appended.
#[derive(Clone, Debug, PartialEq, Eq)]
pub struct Appended {
    pub number: u32,
    pub outcome: Outcome,
}

/// The strokes appended, and the page refusal that stopped the job, if one did.
#[derive(Clone, Debug, PartialEq, Eq)]
pub struct Report {
    pub strokes: Vec<Appended>,
    pub refusal: Option<Refusal>,
}

pub fn run(page: &[u8], answer: &mut Writer) -> Report {
    let mut strokes = Vec::new();
    let refusal = run_on(page, answer, &mut strokes).err();
    Report { strokes, refusal }
}

fn run_on(page: &[u8], answer: &mut Writer, done: &mut Vec<Appended>) -> Result<(), Refusal> {
    let mut reader = Reader::new(page);
    let mut number = 0;
    let mut points: Vec<Point> = Vec::new();
    while let Some(record) = reader.read()? {
        match record {
            Record::Start(given) => {
                number = given;
                points.clear();
            }
            Record::Point(point) => points.push(point),
            Record::Order(order) => {
                let appended = Appended {
                    number,
                    outcome: outcome(&points, &order),
                };
                answer.append(&answer_bytes(&appended))?;
                done.push(appended);
            }
        }
    }
    Ok(())
}

/// What comes of a stroke's points, in the order of the page, and its order.
fn outcome(points: &[Point], order: &Order) -> Outcome {
    let mut tray = Tray::new();
    for point in points {
        if let Err(refusal) = tray.put(point.x, point.y, point.t) {
            return Outcome::Refused(refusal);
        }
    }
    let mut stroke = tray.lift();
    for (index, point) in points.iter().enumerate() {
        if point.corner {
            stroke.mark(index + 1).expect("the point was put");
        }
    }
    let named = Measure::from_code(order.measure).expect("reading checked the code");
    let kind = Kind::from_code(order.total).expect("reading checked the code");
    let measure = Measure::Corners(Box::new(Measure::Span(order.span, Box::new(named))));
    let mut tables = Tables::for_any_stroke();
    let mut list = [0; MOST_POINTS];
    match reduce(
        &stroke,
        &measure,
        kind,
        order.tolerance,
        &mut tables,
        &mut list,
    ) {
        Ok(kept) => Outcome::Kept {
            numbers: list[..kept.count].to_vec(),
            kind,
            total: kept.total,
        },
        Err(refusal) => Outcome::Refused(refusal),
    }
}

/// The record of kind 5 or 6.
fn answer_bytes(appended: &Appended) -> Vec<u8> {
    let mut payload = appended.number.to_le_bytes().to_vec();
    match &appended.outcome {
        Outcome::Kept { numbers, total, .. } => {
            payload.extend(total.first.to_le_bytes());
            payload.extend(total.second.to_le_bytes());
            for number in numbers {
                payload.extend(number.to_le_bytes());
            }
            record_bytes(5, &payload)
        }
        Outcome::Refused(refusal) => {
            payload.extend(refusal.number.to_le_bytes());
            payload.extend((refusal.place as u16).to_le_bytes());
            record_bytes(6, &payload)
        }
    }
}

#[cfg(test)]
mod tests {
    use super::*;
    use crate::refusal::by_page;

    #[test]
    fn short_answer_page() {
        let order = Order {
            measure: 1,
            total: 1,
            span: 0,
            tolerance: 0,
        };
        let mut page = Writer::new(1_000);
        for number in 1..=3 {
            page.write(number, &[], &order).unwrap();
        }
        let mut answer = Writer::new(35);
        let report = run(page.bytes(), &mut answer);
        assert_eq!(report.strokes.len(), 2);
        assert_eq!(report.refusal, Some(by_page(16, 24)));
        assert_eq!(answer.bytes().len(), 24);
    }
}
