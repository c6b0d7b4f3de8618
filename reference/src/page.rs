//! Pages: records, reading and writing (section 7).

use crate::refusal::{by_page, Refusal};
use crate::tray::Point;

#[derive(Clone, Copy, Debug, PartialEq, Eq)]
pub struct Order {
    pub measure: u8,
    pub total: u8,
    pub span: u32,
    pub tolerance: u64,
}

/// A record that was read.
#[derive(Clone, Copy, Debug, PartialEq, Eq)]
pub enum Record {
    Start(u32),
    Point(Point),
    Order(Order),
}

/// Reads a page record by record.
pub struct Reader<'a> {
    page: &'a [u8],
    offset: usize,
    inside: bool,
}

fn u16_at(bytes: &[u8], at: usize) -> u16 {
    u16::from_le_bytes([bytes[at], bytes[at + 1]])
}

fn u32_at(bytes: &[u8], at: usize) -> u32 {
    u16_at(bytes, at) as u32 | (u16_at(bytes, at + 2) as u32) << 16
}

fn u64_at(bytes: &[u8], at: usize) -> u64 {
    u32_at(bytes, at) as u64 | (u32_at(bytes, at + 4) as u64) << 32
}

fn is_code(code: u8) -> bool {
    (1..=3).contains(&code)
}

impl<'a> Reader<'a> {
    pub fn new(page: &'a [u8]) -> Reader<'a> {
        Reader {
            page,
            offset: 0,
            inside: false,
        }
    }

    /// The next record, or None at the page's end.
    pub fn read(&mut self) -> Result<Option<Record>, Refusal> {
        let p = self.offset;
        let rest = &self.page[p..];
        if rest.is_empty() {
            return if self.inside {
                Err(by_page(14, p))
            } else {
                Ok(None)
            };
        }
        if rest.len() < 4 {
            return Err(by_page(11, p));
        }
        let length = u16_at(rest, 0) as usize;
        let kind = u16_at(rest, 2);
        if rest.len() - 4 < length {
            return Err(by_page(11, p));
        }
        let lawful_length = match kind {
            1 => 4,
            2 | 3 => 8,
            4 => 14,
            _ => return Err(by_page(12, p)),
        };
        if length != lawful_length {
            return Err(by_page(13, p));
        }
        if (kind == 1) == self.inside {
            return Err(by_page(14, p));
        }
        let record = match kind {
            1 => Record::Start(u32_at(rest, 4)),
            2 | 3 => Record::Point(Point {
                x: u16_at(rest, 4) as i16 as i32,
                y: u16_at(rest, 6) as i16 as i32,
                t: u32_at(rest, 8),
                corner: kind == 3,
            }),
            _ => Record::Order(Order {
                measure: rest[4],
                total: rest[5],
                span: u32_at(rest, 6),
                tolerance: u64_at(rest, 10),
            }),
        };
        if let Record::Order(order) = record {
            if !is_code(order.measure) || !is_code(order.total) {
                return Err(by_page(15, p));
            }
        }
        self.inside = kind != 4;
        self.offset = p + 4 + length;
        Ok(Some(record))
    }
}

/// A record's bytes: length, kind, payload.
pub fn record_bytes(kind: u16, payload: &[u8]) -> Vec<u8> {
    let mut bytes = Vec::new();
    bytes.extend((payload.len() as u16).to_le_bytes());
    bytes.extend(kind.to_le_bytes());
    bytes.extend(payload);
    bytes
}

pub fn start_bytes(number: u32) -> Vec<u8> {
    record_bytes(1, &number.to_le_bytes())
}

/// The lowest 16 bits of x and y are written.
pub fn point_bytes(point: &Point) -> Vec<u8> {
    let mut payload = Vec::new();
    payload.extend((point.x as i16).to_le_bytes());
    payload.extend((point.y as i16).to_le_bytes());
    payload.extend(point.t.to_le_bytes());
    record_bytes(if point.corner { 3 } else { 2 }, &payload)
}

pub fn order_bytes(order: &Order) -> Vec<u8> {
    let mut payload = vec![order.measure, order.total];
    payload.extend(order.span.to_le_bytes());
    payload.extend(order.tolerance.to_le_bytes());
    record_bytes(4, &payload)
}

/// A page of fixed room; the bytes used so far are `bytes`.
pub struct Writer {
    room: usize,
    bytes: Vec<u8>,
}

impl Writer {
    pub fn new(room: usize) -> Writer {
        Writer {
            room,
            bytes: Vec::new(),
        }
    }

    pub fn bytes(&self) -> &[u8] {
        &self.bytes
    }

    /// Appends all the bytes or none.
    pub fn append(&mut self, bytes: &[u8]) -> Result<usize, Refusal> {
        if self.room - self.bytes.len() < bytes.len() {
            return Err(by_page(16, self.bytes.len()));
        }
        self.bytes.extend(bytes);
        Ok(self.bytes.len())
    }

    /// Writes one whole stroke and answers the bytes used.
    pub fn write(
        &mut self,
        number: u32,
        points: &[Point],
        order: &Order,
    ) -> Result<usize, Refusal> {
        if !is_code(order.measure) || !is_code(order.total) {
            return Err(by_page(15, self.bytes.len()));
        }
        let mut stroke = start_bytes(number);
        for point in points {
            stroke.extend(point_bytes(point));
        }
        stroke.extend(order_bytes(order));
        self.append(&stroke)
    }
}

#[cfg(test)]
mod tests {
    use super::*;

    const ORDER: Order = Order {
        measure: 3,
        total: 2,
        span: u32::MAX,
        tolerance: u64::MAX - 1,
    };

    #[test]
    fn round_trip() {
        let points = [
            Point {
                x: -32_768,
                y: 32_767,
                t: u32::MAX,
                corner: true,
            },
            Point {
                x: -1,
                y: 1,
                t: 0x0102_0304,
                corner: false,
            },
        ];
        let mut writer = Writer::new(76);
        assert_eq!(writer.write(u32::MAX, &points, &ORDER), Ok(50));
        assert_eq!(writer.write(5, &[], &ORDER), Ok(76));
        let mut reader = Reader::new(writer.bytes());
        let mut records = Vec::new();
        while let Some(record) = reader.read().unwrap() {
            records.push(record);
        }
        let expected = [
            Record::Start(u32::MAX),
            Record::Point(points[0]),
            Record::Point(points[1]),
            Record::Order(ORDER),
            Record::Start(5),
            Record::Order(ORDER),
        ];
        assert_eq!(records, expected);
    }

    #[test]
    fn refused_writing() {
        let mut writer = Writer::new(30);
        assert_eq!(writer.write(1, &[], &ORDER), Ok(26));
        assert_eq!(writer.write(1, &[], &ORDER), Err(by_page(16, 26)));
        for code in [0, 4, 255] {
            let measure = Order {
                measure: code,
                ..ORDER
            };
            assert_eq!(writer.write(1, &[], &measure), Err(by_page(15, 26)));
            let total = Order {
                total: code,
                ..ORDER
            };
            assert_eq!(writer.write(1, &[], &total), Err(by_page(15, 26)));
        }
        assert_eq!(writer.bytes().len(), 26);
    }

    #[test]
    fn strange_kinds() {
        for kind in [0, 5, 6, 65_535] {
            let page = record_bytes(kind, &[0; 8]);
            assert_eq!(Reader::new(&page).read(), Err(by_page(12, 0)));
        }
    }
}
