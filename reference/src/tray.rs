//! Points and the tray (sections 1 and 2). `Tray` has the pen down, `Lifted` has it up.

use crate::refusal::{by_tray, Refusal};

/// The most points of a stroke.
pub const MOST_POINTS: usize = 512;
/// The most that the last time may be above the first.
pub const LONGEST: u32 = 8_191;
/// The least and the greatest x and y.
pub const LEAST: i32 = -4_096;
pub const GREATEST: i32 = 4_095;

#[derive(Clone, Copy, Debug, PartialEq, Eq)]
pub struct Point {
    pub x: i32,
    pub y: i32,
    pub t: u32,
    pub corner: bool,
}

#[derive(Clone, Debug, Default, PartialEq, Eq)]
pub struct Tray {
    points: Vec<Point>,
}

#[derive(Clone, Debug, PartialEq, Eq)]
pub struct Lifted {
    points: Vec<Point>,
}

fn off_the_sheet(c: i32) -> bool {
    !(LEAST..=GREATEST).contains(&c)
}

impl Tray {
    pub fn new() -> Tray {
        Tray::default()
    }

    pub fn points(&self) -> &[Point] {
        &self.points
    }

    pub fn put(&mut self, x: i32, y: i32, t: u32) -> Result<usize, Refusal> {
        let place = self.points.len() + 1;
        if off_the_sheet(x) || off_the_sheet(y) {
            return Err(by_tray(1, place));
        }
        if let (Some(first), Some(last)) = (self.points.first(), self.points.last()) {
            if t <= last.t {
                return Err(by_tray(2, place));
            }
            if t - first.t > LONGEST {
                return Err(by_tray(3, place));
            }
        }
        if self.points.len() == MOST_POINTS {
            return Err(by_tray(4, place));
        }
        self.points.push(Point {
            x,
            y,
            t,
            corner: false,
        });
        Ok(place)
    }

    pub fn take_back(&mut self) -> Result<usize, Refusal> {
        let n = self.points.len();
        match self.points.pop() {
            Some(_) => Ok(n),
            None => Err(by_tray(5, 0)),
        }
    }

    pub fn lift(self) -> Lifted {
        Lifted {
            points: self.points,
        }
    }

    pub fn clear(self) -> Tray {
        Tray::new()
    }
}

impl Lifted {
    /// The number of points.
    pub fn n(&self) -> usize {
        self.points.len()
    }

    /// Point i, numbered from 1.
    pub fn p(&self, i: usize) -> Point {
        self.points[i - 1]
    }

    pub fn mark(&mut self, i: usize) -> Result<usize, Refusal> {
        self.set_corner(i, true)
    }

    pub fn unmark(&mut self, i: usize) -> Result<usize, Refusal> {
        self.set_corner(i, false)
    }

    fn set_corner(&mut self, i: usize, corner: bool) -> Result<usize, Refusal> {
        if i == 0 || i > self.n() {
            return Err(by_tray(6, i));
        }
        self.points[i - 1].corner = corner;
        Ok(i)
    }

    pub fn clear(self) -> Tray {
        Tray::new()
    }
}

#[cfg(test)]
mod tests {
    use super::*;

    fn full() -> Tray {
        let mut tray = Tray::new();
        for k in 1..=512 {
            assert_eq!(tray.put(0, 0, 10 * k), Ok(k as usize));
        }
        tray
    }

    #[test]
    fn edges_of_the_sheet() {
        for (x, y, taken) in [
            (4_095, -4_096, true),
            (-4_096, 4_095, true),
            (4_096, 0, false),
            (-4_097, 0, false),
            (0, 4_096, false),
            (0, -4_097, false),
            (i32::MAX, 0, false),
            (0, i32::MIN, false),
        ] {
            let expected = if taken { Ok(1) } else { Err(by_tray(1, 1)) };
            assert_eq!(Tray::new().put(x, y, 7), expected);
        }
    }

    #[test]
    fn clock() {
        let mut tray = Tray::new();
        assert_eq!(tray.put(0, 0, 100), Ok(1));
        assert_eq!(tray.put(0, 0, 100), Err(by_tray(2, 2)));
        assert_eq!(tray.put(0, 0, 99), Err(by_tray(2, 2)));
        assert_eq!(tray.put(5_000, 0, 99), Err(by_tray(1, 2)));
        assert_eq!(tray.put(0, 0, 100 + 8_192), Err(by_tray(3, 2)));
        assert_eq!(tray.put(0, 0, 100 + 8_191), Ok(2));
        assert_eq!(tray.points().len(), 2);
    }

    #[test]
    fn latest_time_and_taking_back() {
        let mut tray = Tray::new();
        assert_eq!(tray.put(0, 0, u32::MAX), Ok(1));
        assert_eq!(tray.put(0, 0, 0), Err(by_tray(2, 2)));
        assert_eq!(tray.take_back(), Ok(1));
        assert_eq!(tray.take_back(), Err(by_tray(5, 0)));
        assert_eq!(tray.put(0, 0, u32::MAX - 8_191), Ok(1));
        assert_eq!(tray.put(0, 0, u32::MAX), Ok(2));
    }

    #[test]
    fn full_tray() {
        let mut tray = full();
        let before = tray.clone();
        assert_eq!(tray.put(0, 0, 5_121), Err(by_tray(4, 513)));
        assert_eq!(tray.put(4_096, 0, 5_121), Err(by_tray(1, 513)));
        assert_eq!(tray.put(0, 0, 5_120), Err(by_tray(2, 513)));
        assert_eq!(tray.put(0, 0, 10 + 8_192), Err(by_tray(3, 513)));
        assert_eq!(tray.put(0, 0, 10 + 8_191), Err(by_tray(4, 513)));
        assert_eq!(tray, before);
        assert_eq!(tray.take_back(), Ok(512));
        assert_eq!(tray.put(0, 0, 5_120), Ok(512));
    }

    #[test]
    fn marks() {
        let mut tray = Tray::new();
        tray.put(0, 0, 0).unwrap();
        let mut stroke = tray.lift();
        assert_eq!(stroke.mark(0), Err(by_tray(6, 0)));
        assert_eq!(stroke.mark(2), Err(by_tray(6, 2)));
        assert_eq!(stroke.unmark(2), Err(by_tray(6, 2)));
        assert_eq!(stroke.mark(1), Ok(1));
        assert_eq!(stroke.mark(1), Ok(1));
        assert!(stroke.p(1).corner);
        assert_eq!(stroke.unmark(1), Ok(1));
        assert_eq!(stroke.unmark(1), Ok(1));
        assert!(!stroke.p(1).corner);
        assert_eq!(stroke.clear(), Tray::new());
    }
}
