//! The refusals of the bus, each with its number; accepted is number 0 and no refusal.

#[derive(Clone, Copy, Debug, PartialEq, Eq)]
pub enum Refusal {
    BodySize = 1,
    Stuffing = 2,
    UnstuffedSize = 3,
    Fcs = 4,
    ReservedAddress = 5,
    OtherAddress = 6,
    UnknownTyp = 7,
    Form = 8,
    SafetyCrc = 9,
    Source = 10,
    Identity = 11,
    Cycle = 12,
    Repeat = 13,
    OutOfOrder = 14,
    TooMany = 15,
    Write = 16,
    NotAllowed = 17,
    NoPlace = 18,
    Unsound = 19,
    Room = 20,
    Host = 21,
    Window = 22,
}

impl Refusal {
    pub fn number(self) -> u8 {
        self as u8
    }
}
