//! Refusals: number, place and layer (section 6).

#[derive(Clone, Copy, Debug, PartialEq, Eq)]
pub enum Layer {
    Tray,
    Page,
    Program,
}

#[derive(Clone, Copy, Debug, PartialEq, Eq)]
pub struct Refusal {
    pub number: u16,
    pub place: usize,
    pub layer: Layer,
}

pub fn by_tray(number: u16, place: usize) -> Refusal {
    Refusal {
        number,
        place,
        layer: Layer::Tray,
    }
}

pub fn by_page(number: u16, place: usize) -> Refusal {
    Refusal {
        number,
        place,
        layer: Layer::Page,
    }
}

pub fn by_program(number: u16, place: usize) -> Refusal {
    Refusal {
        number,
        place,
        layer: Layer::Program,
    }
}
