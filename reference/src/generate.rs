//! Pages for the comparison, each made from a seed and a page number alone.

use crate::lines::MOST_BYTES;
use crate::measure::{Measure, LIMIT};
use crate::page::{order_bytes, point_bytes, record_bytes, start_bytes, Order};
use crate::tray::{Lifted, Point, Tray, GREATEST, LEAST, LONGEST, MOST_POINTS};

/// How many pages are compared, and from which seed, unless others are named.
pub const DEFAULT_PAGES: u64 = 400;
pub const DEFAULT_SEED: u64 = 1;

/// Splitmix64.
pub struct Random {
    state: u64,
}

impl Random {
    pub fn new(seed: u64) -> Random {
        Random { state: seed }
    }

    pub fn draw(&mut self) -> u64 {
        self.state = self.state.wrapping_add(0x9e37_79b9_7f4a_7c15);
        let mut z = self.state;
        z = (z ^ (z >> 30)).wrapping_mul(0xbf58_476d_1ce4_e5b9);
        z = (z ^ (z >> 27)).wrapping_mul(0x94d0_49bb_1331_11eb);
        z ^ (z >> 31)
    }

    /// A number from 0 to n - 1.
    pub fn below(&mut self, n: u64) -> u64 {
        self.draw() % n
    }

    /// A number from a to b, both included.
    pub fn between(&mut self, a: i64, b: i64) -> i64 {
        a + self.below((b - a + 1) as u64) as i64
    }

    fn size(&mut self, a: usize, b: usize) -> usize {
        self.between(a as i64, b as i64) as usize
    }

    fn chance(&mut self, percent: u64) -> bool {
        self.below(100) < percent
    }

    fn pick<T: Copy>(&mut self, items: &[T]) -> T {
        items[self.below(items.len() as u64) as usize]
    }
}

/// The families of pages.
#[derive(Clone, Copy, PartialEq)]
enum Family {
    /// A few small random strokes.
    Small,
    /// Strokes that draw something.
    Curves,
    /// Many tiny strokes.
    Many,
    /// No points, one point, two points.
    Bare,
    /// Refused puts and puts just inside the limits.
    Edges,
    /// Strokes of 512 points.
    Full,
    /// Strokes of 511 points and more.
    Crowded,
    /// Damaged pages.
    Damaged,
    /// The empty page, pages of about 65,536 bytes and longer ones.
    Long,
}

use Family::*;

/// Pages take their families from here in turn.
const CYCLE: [Family; 20] = [
    Small, Curves, Edges, Damaged, Full, Curves, Damaged, Bare, Small, Edges, Damaged, Many,
    Curves, Crowded, Damaged, Small, Curves, Long, Edges, Damaged,
];

/// Page `number` of a seed.
pub fn page(seed: u64, number: u64) -> Vec<u8> {
    let mut mixer = Random::new(seed);
    let random = &mut Random::new(mixer.draw() ^ number.wrapping_mul(0xd134_2543_de82_ef95));
    let cycle = CYCLE.len() as u64;
    let slot = (number % cycle) as usize;
    let family = CYCLE[slot];
    // How many pages of this family came before.
    let each = CYCLE.iter().filter(|&&f| f == family).count() as u64;
    let before = CYCLE[..slot].iter().filter(|&&f| f == family).count() as u64;
    let turn = number / cycle * each + before;
    match family {
        Small => small(random).concat(),
        Curves => curves(random).concat(),
        Many => many(random).concat(),
        Bare => bare(random).concat(),
        Edges => edges(random, turn).concat(),
        Full => full(random, turn).concat(),
        Crowded => crowded(random, turn).concat(),
        Damaged => damaged(random, turn),
        Long => long(random, turn),
    }
}

/// A page that is being made: its records in order.
type Records = Vec<Vec<u8>>;

fn add_stroke(random: &mut Random, records: &mut Records, points: &[Point]) {
    let number = match random.below(10) {
        0 => 0,
        1 => u32::MAX,
        2 => random.draw() as u32,
        _ => random.below(20) as u32,
    };
    records.push(start_bytes(number));
    records.extend(points.iter().map(point_bytes));
    records.push(order_bytes(&order(random, points)));
}

// ---- families ----

fn small(random: &mut Random) -> Records {
    let mut records = Vec::new();
    for _ in 0..random.size(1, 12) {
        let n = random.size(0, 9);
        let points = tiny_stroke(random, n);
        add_stroke(random, &mut records, &points);
    }
    records
}

fn curves(random: &mut Random) -> Records {
    let mut records = Vec::new();
    for _ in 0..random.size(1, 5) {
        let n = random.size(3, 70);
        let shape = random.pick(&SHAPES);
        let points = stroke(random, shape, n);
        add_stroke(random, &mut records, &points);
    }
    records
}

fn many(random: &mut Random) -> Records {
    let mut records = Vec::new();
    for _ in 0..random.size(100, 600) {
        let n = random.size(0, 6);
        let points = tiny_stroke(random, n);
        add_stroke(random, &mut records, &points);
    }
    records
}

fn bare(random: &mut Random) -> Records {
    let mut records = Vec::new();
    for _ in 0..random.size(3, 30) {
        let n = random.size(0, 2);
        let shape = random.pick(&SHAPES);
        let points = stroke(random, shape, n);
        add_stroke(random, &mut records, &points);
    }
    records
}

fn edges(random: &mut Random, turn: u64) -> Records {
    let mut records = Vec::new();
    for extra in 0..4 {
        let n = random.size(1, 12);
        let shape = random.pick(&SHAPES);
        let mut points = stroke(random, shape, n);
        let at = random.size(0, n - 1);
        spoil(random, &mut points, at, (4 * turn + extra) % FAULTS);
        if random.chance(30) {
            let (at, fault) = (random.size(0, n - 1), random.below(FAULTS));
            spoil(random, &mut points, at, fault);
        }
        add_stroke(random, &mut records, &points);
    }
    records
}

fn full(random: &mut Random, turn: u64) -> Records {
    let mut records = Vec::new();
    let shape = SHAPES[(turn % SHAPES.len() as u64) as usize];
    let points = stroke(random, shape, MOST_POINTS);
    add_stroke(random, &mut records, &points);
    add_vast_stroke(random, &mut records, turn);
    records
}

/// A stroke of 512 points with great errors. The orders go through all measures and totals.
fn add_vast_stroke(random: &mut Random, records: &mut Records, turn: u64) {
    let measure = (turn % 3) as u8 + 1;
    let total = (turn / 3 % 3) as u8 + 1;
    let shape = random.pick(&[Shape::Extremes, Shape::Loops, Shape::Loops, Shape::Scatter]);
    let mut points = stroke(random, shape, MOST_POINTS);
    for point in &mut points {
        point.corner = false;
    }
    // Now and then the stroke of the greatest synchronous error: away from both ends, for 8,191 ticks.
    let greatest = turn.is_multiple_of(6);
    if greatest {
        for (k, point) in points.iter_mut().enumerate() {
            let end = k == 0 || k == MOST_POINTS - 1;
            let c = if end { LEAST } else { GREATEST };
            *point = Point {
                x: c,
                y: c,
                t: 16 * k as u32,
                corner: false,
            };
        }
        points[MOST_POINTS - 1].t = LONGEST;
    }
    let bare = Measure::from_code(measure).expect("a lawful code");
    let whole = bare
        .error(&lifted(&points), 1, MOST_POINTS)
        .expect("a chord");
    let length = points[MOST_POINTS - 1].t - points[0].t;
    let (span, tolerance) = if greatest {
        (LONGEST, random.pick(&[LIMIT, whole]))
    } else {
        let span = random.pick(&[LONGEST, LONGEST, length - 1, length / 2]);
        (
            span,
            random.pick(&[LIMIT, LIMIT, whole, whole.saturating_sub(1)]),
        )
    };
    records.push(start_bytes(turn as u32));
    records.extend(points.iter().map(point_bytes));
    records.push(order_bytes(&Order {
        measure,
        total,
        span,
        tolerance,
    }));
}

/// What happens around the 513th point.
fn crowded(random: &mut Random, turn: u64) -> Records {
    let n = match turn % 8 {
        0 => 511,
        1 => 600,
        _ => 513,
    };
    let shape = random.pick(&SHAPES);
    let mut points = stroke(random, shape, n);
    let first = points[0].t;
    if let Some(last) = points.get_mut(MOST_POINTS) {
        match turn % 8 {
            3 => last.x = GREATEST + 1,
            4 => last.t = last.t.wrapping_sub(100),
            5 => last.t = first.wrapping_add(LONGEST + 1),
            6 => (last.y, last.t) = (LEAST - 1, first),
            7 => (last.x, last.t) = (LEAST - 1, first.wrapping_add(LONGEST + 1)),
            _ => {}
        }
    }
    let mut records = Vec::new();
    add_stroke(random, &mut records, &points);
    let points = tiny_stroke(random, 5);
    add_stroke(random, &mut records, &points);
    records
}

/// Records that join to exactly 65,536 bytes.
fn exact(random: &mut Random) -> Records {
    // 26 bytes for each stroke and 12 for each point come to 65,536 where the
    // number of strokes is 2 above a multiple of 6.
    let strokes = 2 + 6 * random.size(10, 150);
    let mut left = (MOST_BYTES - 26 * strokes) / 12;
    let mut records = Vec::new();
    for rest in (0..strokes).rev() {
        let share = left / (rest + 1);
        let n = if rest == 0 {
            left
        } else {
            random.size(0, left.min(2 * share))
        };
        left -= n;
        let shape = random.pick(&SHAPES);
        let points = stroke(random, shape, n);
        add_stroke(random, &mut records, &points);
    }
    records
}

fn long(random: &mut Random, turn: u64) -> Vec<u8> {
    if turn.is_multiple_of(10) {
        return Vec::new();
    }
    let mut page = exact(random).concat();
    assert_eq!(page.len(), MOST_BYTES);
    match turn % 10 {
        1 | 2 => {}
        3 => page.truncate(MOST_BYTES - random.size(1, 30)),
        4 => page.push(0),
        5 => page.extend(small(random).concat()),
        6 => page.extend(exact(random).concat()),
        7 => page.resize(random.size(65_538, 300_000), 0),
        // The last order, 18 bytes, says that it is one byte longer.
        8 => page[MOST_BYTES - 18] += 1,
        _ => page = vec![random.pick(&[0, 1, 255]); random.pick(&[65_535, 65_536, 65_537])],
    }
    page
}

fn damaged(random: &mut Random, turn: u64) -> Vec<u8> {
    let mut records = match random.below(4) {
        0 => edges(random, turn),
        1 => curves(random),
        _ => small(random),
    };
    if random.chance(20) {
        let extra = random.below(DAMAGES);
        damage(random, &mut records, extra);
    }
    damage(random, &mut records, turn % DAMAGES);
    records.concat()
}

const DAMAGES: u64 = 27;

fn kind_of(record: &[u8]) -> u16 {
    match record {
        [_, _, low, high, ..] => u16::from_le_bytes([*low, *high]),
        _ => 0,
    }
}

/// The index of some record of the kind, if there is one.
fn some_record(random: &mut Random, records: &Records, kind: u16) -> Option<usize> {
    let found: Vec<usize> = (0..records.len())
        .filter(|&r| kind_of(&records[r]) == kind)
        .collect();
    if found.is_empty() {
        None
    } else {
        Some(random.pick(&found))
    }
}

fn damage(random: &mut Random, records: &mut Records, which: u64) {
    if records.is_empty() {
        return;
    }
    let at = random.size(0, records.len() - 1);
    match which {
        // A byte changed.
        0 => {
            let mut page = records.concat();
            if !page.is_empty() {
                let byte = random.size(0, page.len() - 1);
                page[byte] ^= random.between(1, 255) as u8;
            }
            *records = vec![page];
        }
        // Cut at any place.
        1 => {
            let mut page = records.concat();
            page.truncate(random.size(0, page.len()));
            *records = vec![page];
        }
        // A record dropped, doubled, swapped.
        2 => {
            records.remove(at);
        }
        3 => records.insert(at, records[at].clone()),
        4 => {
            let other = random.size(0, records.len() - 1);
            records.swap(at, other);
        }
        // A strange kind.
        5 | 20..=23 => {
            let kind: u16 = match which {
                20 => 0,
                21 => 5,
                22 => 6,
                23 => 65_535,
                _ => random.pick(&[7, 256, 257, 258, 260, 512]),
            };
            if records[at].len() >= 4 {
                records[at][2..4].copy_from_slice(&kind.to_le_bytes());
            }
        }
        // A wrong length, with the payload left or with a payload of that length.
        6 => {
            let length: u16 = random.pick(&[0, 1, 3, 4, 5, 7, 8, 9, 13, 14, 15, 65_535]);
            if records[at].len() >= 4 {
                records[at][..2].copy_from_slice(&length.to_le_bytes());
            }
        }
        7 => {
            let kind = random.between(0, 5) as u16;
            let length = random.pick(&[0, 1, 3, 4, 5, 7, 8, 9, 13, 14, 15, 300]);
            records[at] = record_bytes(kind, &vec![1; length]);
        }
        // A start inside a stroke.
        8 => {
            if let Some(order) = some_record(random, records, 4) {
                records.insert(order, start_bytes(3));
            }
        }
        // An order or a point outside a stroke.
        9 | 10 => {
            let plain = Point {
                x: 1,
                y: 1,
                t: 1,
                corner: random.chance(50),
            };
            let outside = if which == 9 {
                order_bytes(&order(random, &[]))
            } else {
                point_bytes(&plain)
            };
            if let Some(start) = some_record(random, records, 1) {
                let place = if random.chance(50) {
                    start
                } else {
                    records.len()
                };
                records.insert(place, outside);
            }
        }
        // A wrong code: of the measure, then of the total.
        11..=16 => {
            if let Some(order) = some_record(random, records, 4) {
                let case = which as usize - 11;
                let (field, code) = (4 + case / 3, [0, 4, 255][case % 3]);
                if records[order].len() >= 6 {
                    records[order][field] = code;
                }
            }
        }
        // Trailing bytes.
        17 | 24 | 25 => {
            let count = if which == 17 { 1 } else { which - 22 };
            records.push((0..count).map(|_| random.draw() as u8).collect());
        }
        // The end inside a stroke.
        18 => {
            if let Some(order) = some_record(random, records, 4) {
                records.truncate(order);
            }
        }
        // A record of an answer page.
        19 => {
            let kept = 20 + 2 * random.size(1, 5);
            let (kind, length) = random.pick(&[(5, kept), (6, 8)]);
            records.insert(at, record_bytes(kind, &vec![1; length]));
        }
        // Bytes without sense.
        _ => {
            let count = random.size(1, 60);
            let junk = (0..count).map(|_| random.below(6) as u8).collect();
            records.insert(at, junk);
        }
    }
}

// ---- faults of puts ----

const FAULTS: u64 = 20;

/// Moves one point to a limit of the tray or over it.
fn spoil(random: &mut Random, points: &mut [Point], at: usize, fault: u64) {
    let first = points[0].t;
    let before = points[at.saturating_sub(1)].t;
    let p = &mut points[at];
    match fault {
        0 => p.x = GREATEST + 1,
        1 => p.x = LEAST - 1,
        2 => p.y = GREATEST + 1,
        3 => p.y = LEAST - 1,
        4 => p.x = random.pick(&[32_767, -32_768]),
        5 => p.y = random.pick(&[32_767, -32_768]),
        6 => p.t = before,
        7 => p.t = before.wrapping_sub(1),
        8 => p.t = 0,
        9 => p.t = first.wrapping_add(LONGEST),
        10 => p.t = first.wrapping_add(LONGEST + 1),
        11 => p.t = first.wrapping_add(random.between(8_193, 100_000) as u32),
        12 => (p.x, p.t) = (GREATEST + 1, before),
        13 => (p.y, p.t) = (LEAST - 1, first.wrapping_add(LONGEST + 1)),
        14 => p.t = u32::MAX,
        15 => (p.x, p.y) = (GREATEST, LEAST),
        16 => (p.x, p.y) = (LEAST, GREATEST),
        17 => points[points.len() - 1].t = first.wrapping_add(LONGEST),
        18 => points[points.len() - 1].t = first.wrapping_add(LONGEST + 1),
        _ => p.t = random.draw() as u32,
    }
}

// ---- strokes ----

#[derive(Clone, Copy)]
enum Shape {
    Grid,
    Scatter,
    Line,
    Bezier,
    Spiral,
    Zigzag,
    Repeats,
    ToAndFro,
    Extremes,
    Walk,
    Polyline,
    Loops,
}

const SHAPES: [Shape; 12] = [
    Shape::Grid,
    Shape::Scatter,
    Shape::Line,
    Shape::Bezier,
    Shape::Spiral,
    Shape::Zigzag,
    Shape::Repeats,
    Shape::ToAndFro,
    Shape::Extremes,
    Shape::Walk,
    Shape::Polyline,
    Shape::Loops,
];

/// A stroke on few places with short gaps, so that equal totals are frequent.
fn tiny_stroke(random: &mut Random, n: usize) -> Vec<Point> {
    let shape = random.pick(&[Shape::Grid, Shape::Zigzag, Shape::Repeats, Shape::Walk]);
    stroke(random, shape, n)
}

/// A lawful stroke of n points; beyond 512 points, only the times are still lawful.
fn stroke(random: &mut Random, shape: Shape, n: usize) -> Vec<Point> {
    let corners = random.pick(&[0, 0, 0, 2, 10, 50, 100]);
    let places = places(random, shape, n);
    let times = times(random, n);
    let mut points = Vec::new();
    for ((x, y), t) in places.into_iter().zip(times) {
        let clamp = |c: i64| c.clamp(LEAST as i64, GREATEST as i64) as i32;
        points.push(Point {
            x: clamp(x),
            y: clamp(y),
            t,
            corner: random.chance(corners),
        });
    }
    points
}

fn anywhere(random: &mut Random) -> (i64, i64) {
    let (least, greatest) = (LEAST as i64, GREATEST as i64);
    (
        random.between(least, greatest),
        random.between(least, greatest),
    )
}

/// The place k / m of the way from a to b, rounded towards a.
fn on_the_way(a: (i64, i64), b: (i64, i64), k: i64, m: i64) -> (i64, i64) {
    let m = m.max(1);
    (a.0 + (b.0 - a.0) * k / m, a.1 + (b.1 - a.1) * k / m)
}

fn places(random: &mut Random, shape: Shape, n: usize) -> Vec<(i64, i64)> {
    let last = n as i64 - 1;
    let numbers = 0..n as i64;
    match shape {
        Shape::Grid => {
            let r = random.pick(&[1, 1, 2, 3, 6]);
            numbers
                .map(|_| (random.between(-r, r), random.between(-r, r)))
                .collect()
        }
        Shape::Scatter => numbers.map(|_| anywhere(random)).collect(),
        Shape::Line => {
            let (a, b) = (anywhere(random), anywhere(random));
            let exact = random.chance(50);
            let (dx, dy) = (random.between(-7, 7), random.between(-7, 7));
            let place = |k| {
                if exact {
                    (k * dx, k * dy)
                } else {
                    on_the_way(a, b, k, last)
                }
            };
            numbers.map(place).collect()
        }
        Shape::Bezier => {
            let c = [
                anywhere(random),
                anywhere(random),
                anywhere(random),
                anywhere(random),
            ];
            let scale = random.pick(&[1, 1, 8, 64]);
            let place = |k| {
                let m = last.max(1);
                let a = on_the_way(c[0], c[1], k, m);
                let b = on_the_way(c[1], c[2], k, m);
                let d = on_the_way(c[2], c[3], k, m);
                let (ab, bd) = (on_the_way(a, b, k, m), on_the_way(b, d, k, m));
                let (x, y) = on_the_way(ab, bd, k, m);
                (x / scale, y / scale)
            };
            numbers.map(place).collect()
        }
        Shape::Spiral => {
            // Steps of a circle in whole numbers, in 1/16 font units.
            let turn = random.pick(&[4, 16, 40]);
            let (mut x, mut y) = (16 * random.between(5, 4_000), 0);
            let shrink = random.pick(&[0, 0, 100, 400]);
            let mut place = |_| {
                x -= y / turn;
                y += x / turn;
                if shrink > 0 {
                    x -= x / shrink;
                    y -= y / shrink;
                }
                (x / 16, y / 16)
            };
            numbers.map(&mut place).collect()
        }
        Shape::Zigzag => {
            let (advance, height) = (random.between(0, 3), random.pick(&[1, 1, 2, 5, 300, 4_095]));
            let period = random.between(1, 4);
            let place = |k: i64| {
                let up = k / period % 2 == 0;
                (k * advance, if up { height } else { -height })
            };
            numbers.map(place).collect()
        }
        Shape::Repeats => {
            let wide = random.chance(30);
            let mut some = Vec::new();
            for _ in 0..random.size(1, 3) {
                let near = (random.between(-3, 3), random.between(-3, 3));
                some.push(if wide { anywhere(random) } else { near });
            }
            numbers.map(|_| random.pick(&some)).collect()
        }
        Shape::ToAndFro => {
            let (dx, dy) = (random.between(-9, 9), random.between(-9, 9));
            let r = random.between(1, 30);
            numbers
                .map(|k| (k % (2 * r) - r).abs())
                .map(|k| (k * dx, k * dy))
                .collect()
        }
        Shape::Extremes => {
            let (least, greatest) = (LEAST as i64, GREATEST as i64);
            let ends = [
                (least, least),
                (greatest, greatest),
                (least, greatest),
                (greatest, least),
            ];
            let (home, away) = (random.pick(&ends), random.pick(&ends));
            let mixed = random.chance(40);
            let mut place = |k| {
                if mixed {
                    random.pick(&ends)
                } else if k == 0 || k == last {
                    home
                } else {
                    away
                }
            };
            numbers.map(&mut place).collect()
        }
        Shape::Walk => {
            let r = random.pick(&[1, 2, 5, 60]);
            let (mut x, mut y) = (0, 0);
            let mut place = |_| {
                x += random.between(-r, r);
                y += random.between(-r, r);
                (x, y)
            };
            numbers.map(&mut place).collect()
        }
        Shape::Polyline => {
            let piece = random.between(2, 40);
            let (mut dx, mut dy) = (1, 0);
            let (mut x, mut y) = (0, 0);
            let mut place = |k| {
                if k % piece == 0 {
                    (dx, dy) = (random.between(-9, 9), random.between(-9, 9));
                }
                x += dx;
                y += dy;
                (x, y)
            };
            numbers.map(&mut place).collect()
        }
        Shape::Loops => {
            // Round the corners of the sheet, all four or three of them.
            let (least, greatest) = (LEAST as i64, GREATEST as i64);
            let ends = [
                (least, least),
                (greatest, least),
                (greatest, greatest),
                (least, greatest),
            ];
            let round = random.size(3, 4);
            numbers.map(|k| ends[k as usize % round]).collect()
        }
    }
}

/// n times that rise strictly, the last at most 8,191 above the first.
fn times(random: &mut Random, n: usize) -> Vec<u32> {
    let gaps = n.saturating_sub(1) as i64;
    let widest = if gaps == 0 {
        1
    } else {
        (LONGEST as i64 / gaps).max(1)
    };
    let style = random.below(5);
    let even = random.between(1, widest);
    let mut after = vec![0];
    for k in 1..=gaps {
        let gap = match style {
            0 => 1,
            1 => even,
            2 => widest,
            3 => random.between(1, widest),
            _ => random.between(1, widest.min(3)),
        };
        after.push(after[k as usize - 1] + gap);
    }
    // The last time exactly 8,191 above the first.
    if gaps > 0 && random.chance(15) {
        after[gaps as usize] = after[gaps as usize].max(LONGEST as i64);
    }
    let length = after[gaps as usize];
    let start = match random.below(6) {
        0 => random.between(0, 10_000),
        1 => random.between(0, u32::MAX as i64 - length),
        2 => u32::MAX as i64 - length,
        _ => 0,
    };
    after.into_iter().map(|t| (start + t) as u32).collect()
}

// ---- orders ----

/// The points that a tray takes, lifted and marked.
fn lifted(points: &[Point]) -> Lifted {
    let mut tray = Tray::new();
    let mut taken = 0;
    for point in points {
        if tray.put(point.x, point.y, point.t).is_err() {
            break;
        }
        taken += 1;
    }
    let mut stroke = tray.lift();
    for i in 1..=taken {
        if points[i - 1].corner {
            stroke.mark(i).expect("the point was put");
        }
    }
    stroke
}

/// Two point numbers of a stroke of at least 2 points, more often near each other than not.
fn chord(random: &mut Random, n: usize) -> (usize, usize) {
    let most = match random.below(3) {
        0 => n - 1,
        1 => (n - 1).min(4),
        _ => (n - 1).min(30),
    };
    let apart = random.size(1, most);
    let i = random.size(1, n - apart);
    (i, i + apart)
}

fn order(random: &mut Random, points: &[Point]) -> Order {
    let stroke = lifted(points);
    let n = stroke.n();
    let measure = random.between(1, 3) as u8;
    let total = random.between(1, 3) as u8;
    let (i, j) = if n < 2 { (0, 0) } else { chord(random, n) };
    let span = match random.below(20) {
        0 => 0,
        1 => random.between(1, 30) as u32,
        2 => random.between(1, 9_000) as u32,
        3 => random.pick(&[8_190, 8_192]),
        4 | 5 if n >= 2 => stroke.p(j).t - stroke.p(i).t - random.below(2) as u32,
        6..=8 => u32::MAX,
        _ => LONGEST,
    };
    let bare = Measure::from_code(measure).expect("a lawful code");
    let chord_error = if n < 2 {
        0
    } else {
        bare.error(&stroke, i, j).expect("a chord")
    };
    let tolerance = match random.below(40) {
        0..=3 => 0,
        4..=9 => random.between(1, 12) as u64,
        10..=15 => random.draw() >> random.between(28, 60),
        16..=25 => chord_error,
        26..=34 => chord_error.saturating_sub(1),
        35 => LIMIT - 1,
        36 | 37 => LIMIT,
        38 => LIMIT + 1,
        _ => random.pick(&[LIMIT + 2, 1 << 37, 1 << 63, u64::MAX]),
    };
    Order {
        measure,
        total,
        span,
        tolerance,
    }
}

#[cfg(test)]
mod tests {
    use super::*;
    use crate::job::Outcome;
    use crate::lines;
    use crate::page::{Reader, Record};
    use std::collections::BTreeSet;

    #[test]
    fn same_seed_same_page() {
        for number in 0..40 {
            assert_eq!(page(1, number), page(1, number));
        }
    }

    /// The default pages show every refusal that the program can print, and every order.
    #[test]
    fn default_pages_cover_the_rules() {
        let mut stroke_refusals = BTreeSet::new();
        let mut page_refusals = BTreeSet::new();
        let mut orders = BTreeSet::new();
        let mut lengths = BTreeSet::new();
        let mut full_size = 0;
        for number in 0..DEFAULT_PAGES {
            let page = page(DEFAULT_SEED, number);
            lengths.insert(page.len());
            let report = lines::run(&page);
            page_refusals.extend(report.refusal.map(|r| r.number));
            let mut reader = Reader::new(&page);
            let mut read = Vec::new();
            if page.len() <= MOST_BYTES {
                while let Ok(Some(record)) = reader.read() {
                    if let Record::Order(order) = record {
                        read.push(order);
                    }
                }
            }
            assert_eq!(read.len(), report.strokes.len());
            for (stroke, order) in report.strokes.iter().zip(read) {
                match &stroke.outcome {
                    Outcome::Refused(r) => {
                        stroke_refusals.insert((r.number, r.place == 513));
                    }
                    Outcome::Kept { numbers, .. } => {
                        orders.insert((order.measure, order.total));
                        full_size += usize::from(numbers.last() == Some(&512));
                    }
                }
            }
        }
        assert_eq!(
            page_refusals.into_iter().collect::<Vec<_>>(),
            [11, 12, 13, 14, 15, 17]
        );
        let stroke_refusals: Vec<_> = stroke_refusals.into_iter().collect();
        let expected = [
            (1, false),
            (1, true),
            (2, false),
            (2, true),
            (3, false),
            (3, true),
            (4, true),
            (5, false),
            (7, false),
            (9, false),
        ];
        for refusal in expected {
            assert!(stroke_refusals.contains(&refusal), "{refusal:?}");
        }
        assert_eq!(orders.len(), 9);
        for length in [0, MOST_BYTES, MOST_BYTES + 1] {
            assert!(lengths.contains(&length), "{length}");
        }
        assert!((10..80).contains(&full_size), "{full_size}");
    }
}
