//! Measures: three bare ones and two layers (section 3). 128-bit arithmetic, so that nothing can overflow.

use crate::tray::{Lifted, Point};

/// The greatest error and the greatest lawful tolerance, 2^36 - 1.
pub const LIMIT: u64 = 68_719_476_735;

#[derive(Clone, Debug)]
pub enum Measure {
    Synchronous,
    Distance,
    Area,
    Corners(Box<Measure>),
    Span(u32, Box<Measure>),
}

impl Measure {
    /// The bare measure of a code from 1 to 3.
    pub fn from_code(code: u8) -> Option<Measure> {
        match code {
            1 => Some(Measure::Synchronous),
            2 => Some(Measure::Distance),
            3 => Some(Measure::Area),
            _ => None,
        }
    }

    /// The error of the chord i to j, or None where the chord is barred.
    pub fn error(&self, stroke: &Lifted, i: usize, j: usize) -> Option<u64> {
        if !(1 <= i && i < j && j <= stroke.n()) {
            return None;
        }
        match self {
            Measure::Synchronous => Some(synchronous(stroke, i, j)),
            Measure::Distance => Some(distance(stroke, i, j)),
            Measure::Area => Some(area(stroke, i, j)),
            Measure::Corners(inner) => {
                let barred = (i + 1..j).any(|k| stroke.p(k).corner);
                if barred {
                    None
                } else {
                    inner.error(stroke, i, j)
                }
            }
            Measure::Span(s, inner) => {
                let barred = stroke.p(j).t - stroke.p(i).t > *s;
                if barred {
                    None
                } else {
                    inner.error(stroke, i, j)
                }
            }
        }
    }
}

/// a / b rounded up; a is not negative and b is above 0.
fn rounded_up(a: i128, b: i128) -> i128 {
    (a + b - 1) / b
}

fn as_error(e: i128) -> u64 {
    assert!(
        (0..=LIMIT as i128).contains(&e),
        "an error outside the limit"
    );
    e as u64
}

/// A step between two places.
#[derive(Clone, Copy)]
struct Step {
    x: i128,
    y: i128,
}

/// The step from a to b, b - a.
fn step(a: Point, b: Point) -> Step {
    Step {
        x: (b.x - a.x) as i128,
        y: (b.y - a.y) as i128,
    }
}

fn dot(u: Step, w: Step) -> i128 {
    u.x * w.x + u.y * w.y
}

fn cross(u: Step, w: Step) -> i128 {
    u.x * w.y - u.y * w.x
}

fn synchronous(stroke: &Lifted, i: usize, j: usize) -> u64 {
    let (pi, pj) = (stroke.p(i), stroke.p(j));
    let whole = (pj.t - pi.t) as i128;
    let d = step(pi, pj);
    let mut sum = 0;
    for k in i + 1..j {
        let pk = stroke.p(k);
        let v = step(pi, pk);
        let part = (pk.t - pi.t) as i128;
        let a = v.x * whole - part * d.x;
        let b = v.y * whole - part * d.y;
        sum += a * a + b * b;
    }
    as_error(rounded_up(sum, whole * whole))
}

fn distance(stroke: &Lifted, i: usize, j: usize) -> u64 {
    let (pi, pj) = (stroke.p(i), stroke.p(j));
    let d = step(pi, pj);
    let q = dot(d, d);
    let mut greatest = 0;
    for k in i + 1..j {
        let v = step(pi, stroke.p(k));
        let w = step(pj, stroke.p(k));
        let s = dot(v, d);
        let squared = if s <= 0 {
            dot(v, v)
        } else if s >= q {
            dot(w, w)
        } else {
            rounded_up(cross(d, v) * cross(d, v), q)
        };
        greatest = greatest.max(squared);
    }
    as_error(greatest)
}

fn area(stroke: &Lifted, i: usize, j: usize) -> u64 {
    let pi = stroke.p(i);
    let mut sum = 0;
    for m in i + 1..j {
        sum += cross(step(pi, stroke.p(m)), step(pi, stroke.p(m + 1)));
    }
    as_error(sum.abs())
}

#[cfg(test)]
mod tests {
    use super::*;
    use crate::tray::Tray;

    fn bare_measures() -> [Measure; 3] {
        [Measure::Synchronous, Measure::Distance, Measure::Area]
    }

    fn three_points() -> Lifted {
        let mut tray = Tray::new();
        for k in 0..3 {
            tray.put(k, k * k, 5 * k as u32).unwrap();
        }
        tray.lift()
    }

    #[test]
    fn law_4() {
        let stroke = three_points();
        for bare in bare_measures() {
            let layered =
                Measure::Corners(Box::new(Measure::Span(u32::MAX, Box::new(bare.clone()))));
            for i in 0..6 {
                for j in 0..6 {
                    let inside = 1 <= i && i < j && j <= 3;
                    assert_eq!(bare.error(&stroke, i, j).is_some(), inside);
                    assert_eq!(layered.error(&stroke, i, j).is_some(), inside);
                }
            }
        }
    }

    #[test]
    fn layers() {
        let mut stroke = three_points();
        for bare in bare_measures() {
            let span = |s| Measure::Span(s, Box::new(bare.clone()));
            assert_eq!(span(10).error(&stroke, 1, 3), bare.error(&stroke, 1, 3));
            assert_eq!(span(9).error(&stroke, 1, 3), None);
            assert_eq!(span(0).error(&stroke, 1, 2), None);
            let corners = Measure::Corners(Box::new(bare.clone()));
            for (corner, barred) in [(1, false), (2, true), (3, false)] {
                stroke.mark(corner).unwrap();
                assert_eq!(corners.error(&stroke, 1, 3).is_none(), barred);
                stroke.unmark(corner).unwrap();
            }
        }
    }

    #[test]
    fn greatest_errors_keep_the_limit() {
        let mut tray = Tray::new();
        for k in 0..512 {
            let c = if k == 0 || k == 511 { -4_096 } else { 4_095 };
            tray.put(c, c, 16 * k).unwrap();
        }
        let stroke = tray.lift();
        assert_eq!(
            Measure::Synchronous.error(&stroke, 1, 512),
            Some(68_434_330_620)
        );
        assert_eq!(Measure::Distance.error(&stroke, 1, 512), Some(134_184_962));
        assert_eq!(Measure::Area.error(&stroke, 1, 512), Some(0));
    }
}
