// The whole job on one stroke of 512 points, by each measure and each kind of total: the proved code beside the reference program, in one process.
use std::hint::black_box;
use std::time::Instant;

#[repr(C)]
#[derive(Default)]
struct Status {
    strokes: usize,
    refusal: usize,
    place: usize,
}

#[link(name = "plotter", kind = "static")]
unsafe extern "C" {
    fn fulgestam_reduce(page: *const u8, page_len: usize, answers: *mut u8, answers_len: usize, status: *mut Status);
}

fn proved(page: &[u8], answers: &mut [u8]) -> Status {
    let mut status = Status::default();
    // The lengths are those of the slices, and the three do not overlap.
    unsafe { fulgestam_reduce(page.as_ptr(), page.len(), answers.as_mut_ptr(), answers.len(), &mut status) };
    status
}

fn record(page: &mut Vec<u8>, kind: u16, payload: &[u8]) {
    page.extend((payload.len() as u16).to_le_bytes());
    page.extend(kind.to_le_bytes());
    page.extend(payload);
}

// A wandering stroke from a fixed seed.
fn stroke(measure: u8, total: u8, tolerance: u64) -> Vec<u8> {
    let mut page = Vec::new();
    let mut seed = 88172645463325252u64;
    let mut draw = || {
        seed ^= seed << 13;
        seed ^= seed >> 7;
        seed ^= seed << 17;
        ((seed >> 20) % 41) as i16 - 20
    };
    record(&mut page, 1, &1u32.to_le_bytes());
    let (mut x, mut y) = (0i16, 0i16);
    for k in 0..512u32 {
        x = (x + draw()).clamp(-4096, 4095);
        y = (y + draw()).clamp(-4096, 4095);
        let mut payload = Vec::new();
        payload.extend(x.to_le_bytes());
        payload.extend(y.to_le_bytes());
        payload.extend((k * 16).to_le_bytes());
        record(&mut page, 2, &payload);
    }
    let mut order = vec![measure, total];
    order.extend(u32::MAX.to_le_bytes());
    order.extend(tolerance.to_le_bytes());
    record(&mut page, 4, &order);
    page
}

fn least(turns: usize, mut f: impl FnMut()) -> f64 {
    (0..turns)
        .map(|_| {
            let start = Instant::now();
            f();
            start.elapsed().as_secs_f64() * 1e3
        })
        .fold(f64::MAX, f64::min)
}

fn main() {
    for (measure, name, tolerance) in [(1u8, "synchronous", 4_000u64), (2, "distance", 400), (3, "area", 4_000)] {
        for (total, kind) in [(1u8, "sum"), (2, "worst"), (3, "sum then worst")] {
            let page = stroke(measure, total, tolerance);
            let mut answers = vec![0u8; 65_536];
            let status = proved(&page, &mut answers);
            assert_eq!((status.strokes, status.refusal, status.place), (1, 0, 0));
            let line = reference::lines::print(&reference::lines::run(&page));
            let kept = line.split(" total ").next().unwrap().split(' ').count() - 3;
            let told = u16::from_le_bytes([answers[0], answers[1]]) as usize;
            assert_eq!(told, 20 + 2 * kept, "both keep as many points");
            let ours = least(15, || { proved(black_box(&page), black_box(&mut answers)); });
            let theirs = least(5, || { black_box(reference::lines::run(black_box(&page))); });
            println!("{name}, {kind}: keeps {kept} of 512; proved {ours:.1} ms, reference {theirs:.1} ms, ratio {:.2}", ours / theirs);
        }
    }
}
