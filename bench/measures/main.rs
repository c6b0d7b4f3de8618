// Times the proved measures beside plain Rust, in one run: all chords of one stroke of 512 points, for each measure.
// The proved side puts the points on a tray, lifts it and sums the errors; the plain side sums them over a slice.
// Both sums must agree.
use std::hint::black_box;
use std::time::Instant;

#[repr(C)]
#[derive(Clone, Copy)]
struct Place {
    x: i32,
    y: i32,
    t: u32,
}

#[link(name = "chords", kind = "static")]
unsafe extern "C" {
    fn chords_synchronous(places: *const Place, count: usize) -> u64;
    fn chords_distance(places: *const Place, count: usize) -> u64;
    fn chords_area(places: *const Place, count: usize) -> u64;
}

fn synchronous(p: &[Place], i: usize, j: usize) -> u64 {
    let (a, b) = (p[i], p[j]);
    let whole = (b.t - a.t) as i64;
    let (dx, dy) = ((b.x - a.x) as i64, (b.y - a.y) as i64);
    let mut sum = 0u64;
    for k in &p[i + 1..j] {
        let part = (k.t - a.t) as i64;
        let u = (k.x - a.x) as i64 * whole - part * dx;
        let v = (k.y - a.y) as i64 * whole - part * dy;
        sum += (u * u + v * v) as u64;
    }
    sum.div_ceil((whole * whole) as u64)
}

fn distance(p: &[Place], i: usize, j: usize) -> u64 {
    let (a, b) = (p[i], p[j]);
    let (dx, dy) = ((b.x - a.x) as i64, (b.y - a.y) as i64);
    let q = dx * dx + dy * dy;
    let (mut past, mut along) = (0i64, 0i64);
    for k in &p[i + 1..j] {
        let (vx, vy) = ((k.x - a.x) as i64, (k.y - a.y) as i64);
        let s = vx * dx + vy * dy;
        if s <= 0 {
            past = past.max(vx * vx + vy * vy);
        } else if s >= q {
            let (wx, wy) = ((k.x - b.x) as i64, (k.y - b.y) as i64);
            past = past.max(wx * wx + wy * wy);
        } else {
            let c = dx * vy - dy * vx;
            along = along.max(c * c);
        }
    }
    if along == 0 { past as u64 } else { (past as u64).max((along as u64).div_ceil(q as u64)) }
}

fn area(p: &[Place], i: usize, j: usize) -> u64 {
    let o = p[i];
    let mut sum = 0i64;
    for m in i + 1..j {
        let (u, w) = (p[m], p[m + 1]);
        sum += (u.x - o.x) as i64 * (w.y - o.y) as i64 - (u.y - o.y) as i64 * (w.x - o.x) as i64;
    }
    sum.unsigned_abs()
}

fn every(p: &[Place], error: impl Fn(&[Place], usize, usize) -> u64) -> u64 {
    let mut sum = 0u64;
    for j in 1..p.len() {
        for i in 0..j {
            sum += error(p, i, j);
        }
    }
    sum
}

// A stroke that wanders, from a fixed seed.
fn stroke(count: u32) -> Vec<Place> {
    let mut seed = 88172645463325252u64;
    let mut step = || {
        seed ^= seed << 13;
        seed ^= seed >> 7;
        seed ^= seed << 17;
        (seed >> 20) as i32 % 21
    };
    let (mut x, mut y) = (0, 0);
    let mut places = Vec::new();
    for k in 0..count {
        x = (x + step()).clamp(-4096, 4095);
        y = (y + step()).clamp(-4096, 4095);
        places.push(Place { x, y, t: k * 16 });
    }
    places
}

// The least of several timed runs, in milliseconds, and the answer.
fn least(best: &mut f64, run: &dyn Fn() -> u64) -> u64 {
    let start = Instant::now();
    let answer = black_box(run());
    *best = best.min(start.elapsed().as_secs_f64() * 1e3);
    answer
}

fn main() {
    let places = stroke(512);
    let p = places.as_slice();
    let sides: [(&str, Box<dyn Fn() -> u64>, Box<dyn Fn() -> u64>); 3] = [
        (
            "synchronous",
            Box::new(|| every(black_box(p), synchronous)),
            Box::new(|| unsafe { chords_synchronous(black_box(p).as_ptr(), p.len()) }),
        ),
        (
            "distance",
            Box::new(|| every(black_box(p), distance)),
            Box::new(|| unsafe { chords_distance(black_box(p).as_ptr(), p.len()) }),
        ),
        (
            "area",
            Box::new(|| every(black_box(p), area)),
            Box::new(|| unsafe { chords_area(black_box(p).as_ptr(), p.len()) }),
        ),
    ];
    println!("{:<12} {:>10} {:>10} {:>7}", "measure", "rust ms", "proved ms", "ratio");
    for (name, plain, proved) in &sides {
        let (mut a, mut b) = (f64::MAX, f64::MAX);
        for _ in 0..25 {
            let x = least(&mut a, plain);
            let y = least(&mut b, proved);
            assert_eq!(x, y, "{name}");
        }
        println!("{name:<12} {a:>10.3} {b:>10.3} {:>7.3}", b / a);
    }
}
