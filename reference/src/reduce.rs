//! Chains, tables and reduce (section 5), by the definition of best pairs and predecessors.

use crate::measure::{Measure, LIMIT};
use crate::refusal::{by_tray, Refusal};
use crate::total::{Kind, Total};
use crate::tray::{Lifted, MOST_POINTS};

/// The three tables that the caller lends. Entry j is at index j - 1.
#[derive(Clone, Debug, PartialEq, Eq)]
pub struct Tables {
    pub counts: Vec<u16>,
    pub predecessors: Vec<u16>,
    pub totals: Vec<Total>,
}

impl Tables {
    /// Tables with the given number of entries each.
    pub fn new(entries: usize) -> Tables {
        Tables {
            counts: vec![0; entries],
            predecessors: vec![0; entries],
            totals: vec![
                Total {
                    first: 0,
                    second: 0
                };
                entries
            ],
        }
    }

    /// Tables for any stroke.
    pub fn for_any_stroke() -> Tables {
        Tables::new(MOST_POINTS)
    }

    fn shortest(&self) -> usize {
        self.counts
            .len()
            .min(self.predecessors.len())
            .min(self.totals.len())
    }

    fn is_reached(&self, i: usize) -> bool {
        i == 1 || self.counts[i - 1] > 0
    }

    fn set(&mut self, j: usize, count: u16, predecessor: u16, total: Total) {
        self.counts[j - 1] = count;
        self.predecessors[j - 1] = predecessor;
        self.totals[j - 1] = total;
    }
}

#[derive(Clone, Copy, Debug, PartialEq, Eq)]
pub struct Answer {
    /// The number of kept points.
    pub count: usize,
    pub total: Total,
}

pub fn reduce(
    stroke: &Lifted,
    measure: &Measure,
    kind: Kind,
    tolerance: u64,
    tables: &mut Tables,
    list: &mut [u16],
) -> Result<Answer, Refusal> {
    let n = stroke.n();
    if n == 0 {
        return Err(by_tray(5, 0));
    }
    if tolerance > LIMIT {
        return Err(by_tray(7, 0));
    }
    if tables.shortest() < n {
        return Err(by_tray(8, n));
    }
    fill(stroke, measure, kind, tolerance, tables);
    if !tables.is_reached(n) {
        return Err(by_tray(9, n));
    }
    let chain = kept_chain(tables, n);
    if list.len() < chain.len() {
        return Err(by_tray(10, chain.len()));
    }
    list[..chain.len()].copy_from_slice(&chain);
    Ok(Answer {
        count: chain.len(),
        total: tables.totals[n - 1],
    })
}

/// Fills entries 1 to n of the tables.
fn fill(stroke: &Lifted, measure: &Measure, kind: Kind, tolerance: u64, tables: &mut Tables) {
    tables.set(1, 0, 0, kind.start());
    for j in 2..=stroke.n() {
        // Every i from which a lawful chain goes on to j, rising, with the pair it gives.
        let mut ways: Vec<(usize, (u16, Total))> = Vec::new();
        for i in 1..j {
            if !tables.is_reached(i) {
                continue;
            }
            if let Some(e) = measure.error(stroke, i, j) {
                if e <= tolerance {
                    let count = tables.counts[i - 1] + 1;
                    let total = kind.join(tables.totals[i - 1], kind.value(e));
                    ways.push((i, (count, total)));
                }
            }
        }
        // The best pair: the least count, then the least total.
        match ways.iter().map(|&(_, pair)| pair).min() {
            None => tables.set(j, 0, 0, kind.start()),
            Some(best) => {
                // The predecessor: the least i that gives the best pair.
                let least = ways
                    .iter()
                    .find(|&&(_, pair)| pair == best)
                    .map(|&(i, _)| i);
                let predecessor = least.expect("the best pair comes from a way");
                tables.set(j, best.0, predecessor as u16, best.1);
            }
        }
    }
}

/// The numbers from 1 to n, followed back from n by the predecessors.
fn kept_chain(tables: &Tables, n: usize) -> Vec<u16> {
    let mut chain = vec![n as u16];
    let mut j = n;
    while j > 1 {
        j = tables.predecessors[j - 1] as usize;
        chain.push(j as u16);
    }
    chain.reverse();
    chain
}

#[cfg(test)]
mod tests {
    use super::*;
    use crate::generate::Random;
    use crate::tray::Tray;

    fn line(n: u32) -> Lifted {
        let mut tray = Tray::new();
        for k in 0..n {
            tray.put(k as i32, 0, k).unwrap();
        }
        tray.lift()
    }

    #[test]
    fn order_of_checks() {
        let sum = |stroke: &Lifted, tolerance, tables: &mut Tables, list: &mut [u16]| {
            reduce(
                stroke,
                &Measure::Synchronous,
                Kind::Sum,
                tolerance,
                tables,
                list,
            )
        };
        let untouched = Tables::new(2);
        let mut tables = untouched.clone();
        let bare = Tray::new().lift();
        assert_eq!(
            sum(&bare, u64::MAX, &mut tables, &mut []),
            Err(by_tray(5, 0))
        );
        assert_eq!(
            sum(&line(3), LIMIT + 1, &mut tables, &mut []),
            Err(by_tray(7, 0))
        );
        assert_eq!(
            sum(&line(3), LIMIT, &mut tables, &mut []),
            Err(by_tray(8, 3))
        );
        assert_eq!(tables, untouched);
        assert_eq!(sum(&line(1), 0, &mut tables, &mut []), Err(by_tray(10, 1)));
        let mut list = [9; 3];
        let zero = Total {
            first: 0,
            second: 0,
        };
        assert_eq!(
            sum(&line(2), 0, &mut tables, &mut list),
            Ok(Answer {
                count: 2,
                total: zero
            })
        );
        assert_eq!(list, [1, 2, 9]);
        let mut uneven = Tables::new(3);
        uneven.totals.pop();
        assert_eq!(sum(&line(3), 0, &mut uneven, &mut list), Err(by_tray(8, 3)));
    }

    #[test]
    fn entries_after_n_stay() {
        let other = Total {
            first: 7,
            second: 7,
        };
        let mut tables = Tables {
            counts: vec![7; 4],
            predecessors: vec![7; 4],
            totals: vec![other; 4],
        };
        let never = Measure::Span(0, Box::new(Measure::Area));
        let refused = reduce(&line(3), &never, Kind::Worst, 0, &mut tables, &mut [0; 3]);
        let zero = Total {
            first: 0,
            second: 0,
        };
        assert_eq!(refused, Err(by_tray(9, 3)));
        assert_eq!(tables.counts, [0, 0, 0, 7]);
        assert_eq!(tables.predecessors, [0, 0, 0, 7]);
        assert_eq!(tables.totals, [zero, zero, zero, other]);
    }

    /// Every row of numbers that rises from 1 to j.
    fn chains_to(j: usize) -> Vec<Vec<usize>> {
        if j == 1 {
            return vec![vec![1]];
        }
        let mut chains = Vec::new();
        for choice in 0u32..1 << (j - 2) {
            let mut chain = vec![1];
            chain.extend((2..j).filter(|k| choice >> (k - 2) & 1 == 1));
            chain.push(j);
            chains.push(chain);
        }
        chains
    }

    /// The number of chords and the total of a chain, if every chord is lawful.
    fn pair_of(
        chain: &[usize],
        stroke: &Lifted,
        measure: &Measure,
        kind: Kind,
        tolerance: u64,
    ) -> Option<(u16, Total)> {
        let mut total = kind.start();
        for chord in chain.windows(2) {
            let e = measure
                .error(stroke, chord[0], chord[1])
                .filter(|&e| e <= tolerance)?;
            total = kind.join(total, kind.value(e));
        }
        Some((chain.len() as u16 - 1, total))
    }

    fn random_stroke(random: &mut Random) -> Lifted {
        let n = random.between(1, 12).min(9);
        let reach = [1, 1, 2, 30, 4_000][random.below(5) as usize];
        let gap = [1, 2, 900][random.below(3) as usize];
        let mut tray = Tray::new();
        let mut t = 0;
        for _ in 0..n {
            let (x, y) = (random.between(-reach, reach), random.between(-reach, reach));
            tray.put(x as i32, y as i32, t).unwrap();
            t += random.between(1, gap) as u32;
        }
        let mut stroke = tray.lift();
        for i in 1..=stroke.n() {
            if random.below(8) == 0 {
                stroke.mark(i).unwrap();
            }
        }
        stroke
    }

    #[test]
    fn brute_force() {
        let mut random = Random::new(20);
        let (mut answered, mut no_way, mut shared) = (0, 0, 0);
        for _ in 0..4_000 {
            let stroke = random_stroke(&mut random);
            let n = stroke.n();
            let mut measure = Measure::from_code(random.below(3) as u8 + 1).unwrap();
            if random.below(3) == 0 {
                let length = (stroke.p(n).t - stroke.p(1).t) as u64;
                measure = Measure::Span(random.below(length + 1) as u32, Box::new(measure));
            }
            if random.below(2) == 0 {
                measure = Measure::Corners(Box::new(measure));
            }
            let kind = Kind::from_code(random.below(3) as u8 + 1).unwrap();
            let (i, j) = (random.below(n as u64), random.below(n as u64));
            let tolerance = match random.below(4) {
                0 => random.below(6),
                1 => LIMIT,
                _ => measure
                    .error(&stroke, i as usize + 1, j as usize + 1)
                    .unwrap_or(3),
            };
            let mut tables = Tables::for_any_stroke();
            let mut list = vec![0; MOST_POINTS];
            let result = reduce(&stroke, &measure, kind, tolerance, &mut tables, &mut list);

            // Best pairs from all lawful chains, at the point's number.
            let mut best = vec![None];
            for j in 1..=n {
                let pairs = || {
                    chains_to(j)
                        .into_iter()
                        .filter_map(|chain| pair_of(&chain, &stroke, &measure, kind, tolerance))
                };
                let least_count = pairs().map(|(count, _)| count).min();
                best.push(least_count.map(|least| {
                    let totals = pairs().filter(|&(count, _)| count == least);
                    (least, totals.map(|(_, total)| total).min().unwrap())
                }));
            }
            // Predecessors by their definition.
            let mut before = vec![0; n + 1];
            for j in 2..=n {
                if let Some((count, total)) = best[j] {
                    let fits = |&i: &usize| {
                        let chord = measure.error(&stroke, i, j).filter(|&e| e <= tolerance);
                        match (best[i], chord) {
                            (Some((c, t)), Some(e)) => {
                                count == c + 1 && total == kind.join(t, kind.value(e))
                            }
                            _ => false,
                        }
                    };
                    before[j] = (1..j).find(fits).unwrap();
                    shared += usize::from((1..j).filter(fits).count() > 1);
                }
                let (count, total) = best[j].unwrap_or((0, kind.start()));
                assert_eq!(tables.counts[j - 1], count);
                assert_eq!(tables.totals[j - 1], total);
                assert_eq!(tables.predecessors[j - 1] as usize, before[j]);
            }
            match best[n] {
                None => {
                    no_way += 1;
                    assert_eq!(result, Err(by_tray(9, n)));
                }
                Some((count, total)) => {
                    answered += 1;
                    let answer = Answer {
                        count: count as usize + 1,
                        total,
                    };
                    assert_eq!(result, Ok(answer));
                    let mut chain = vec![n];
                    while chain[0] > 1 {
                        chain.insert(0, before[chain[0]]);
                    }
                    let kept: Vec<usize> =
                        list[..answer.count].iter().map(|&k| k as usize).collect();
                    assert_eq!(kept, chain);
                    let pair = pair_of(&chain, &stroke, &measure, kind, tolerance);
                    assert_eq!(pair, Some((count, total)));
                }
            }
        }
        assert!(
            answered > 1_000 && no_way > 100 && shared > 500,
            "{answered} {no_way} {shared}"
        );
    }
}
