//! Kinds of total (section 4).

#[derive(Clone, Copy, Debug, PartialEq, Eq)]
pub enum Kind {
    Sum,
    Worst,
    SumThenWorst,
}

/// A total as the two fields of a kept record: (sum, 0), (worst, 0) or (sum, worst).
/// The order of the fields, first before second, is then the order of every kind.
#[derive(Clone, Copy, Debug, PartialEq, Eq, PartialOrd, Ord)]
pub struct Total {
    pub first: u64,
    pub second: u64,
}

impl Kind {
    /// The kind of a code from 1 to 3.
    pub fn from_code(code: u8) -> Option<Kind> {
        match code {
            1 => Some(Kind::Sum),
            2 => Some(Kind::Worst),
            3 => Some(Kind::SumThenWorst),
            _ => None,
        }
    }

    pub fn start(self) -> Total {
        Total {
            first: 0,
            second: 0,
        }
    }

    pub fn value(self, e: u64) -> Total {
        match self {
            Kind::Sum | Kind::Worst => Total {
                first: e,
                second: 0,
            },
            Kind::SumThenWorst => Total {
                first: e,
                second: e,
            },
        }
    }

    pub fn join(self, a: Total, b: Total) -> Total {
        match self {
            Kind::Sum => Total {
                first: a.first.saturating_add(b.first),
                second: 0,
            },
            Kind::Worst => Total {
                first: a.first.max(b.first),
                second: 0,
            },
            Kind::SumThenWorst => Total {
                first: a.first.saturating_add(b.first),
                second: a.second.max(b.second),
            },
        }
    }
}

#[cfg(test)]
mod tests {
    use super::*;

    #[test]
    fn laws() {
        for kind in [Kind::Sum, Kind::Worst, Kind::SumThenWorst] {
            let mut totals = vec![kind.start()];
            for a in 0..4 {
                for b in 0..4 {
                    totals.push(kind.join(kind.value(a), kind.value(b)));
                }
            }
            for &a in &totals {
                assert_eq!(kind.join(kind.start(), a), a);
                assert_eq!(kind.join(a, kind.start()), a);
                for &b in &totals {
                    for &c in &totals {
                        let (ac, bc) = (kind.join(a, c), kind.join(b, c));
                        let (ca, cb) = (kind.join(c, a), kind.join(c, b));
                        assert!(a > b || (ac <= bc && ca <= cb));
                        assert_eq!(kind.join(kind.join(a, b), c), kind.join(a, kind.join(b, c)));
                    }
                }
            }
        }
    }

    #[test]
    fn sums_stop() {
        let most = Kind::Sum.value(u64::MAX);
        assert_eq!(Kind::Sum.join(most, Kind::Sum.value(1)), most);
    }
}
