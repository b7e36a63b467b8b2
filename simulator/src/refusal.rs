//! The refusals (REFUSALS.md).

#[derive(Clone, Copy, PartialEq, Eq, Debug)]
pub enum Refusal {
    SlotRange,
    PeriodRange,
    DeadlineRange,
    ServiceRange,
    WindowRange,
    RequiredRange,
    HistoryWidth,
    UnitCount,
    FileShort,
    FieldUnknown,
    PeriodMissing,
    BytesFollow,
    WordUnknown,
    SlotTaken,
    SlotEmpty,
    HyperPeriodLimit,
    HistoryLimit,
    InstantLimit,
}

impl Refusal {
    pub fn number(self) -> u32 {
        match self {
            Refusal::SlotRange => 1,
            Refusal::PeriodRange => 2,
            Refusal::DeadlineRange => 3,
            Refusal::ServiceRange => 4,
            Refusal::WindowRange => 5,
            Refusal::RequiredRange => 6,
            Refusal::HistoryWidth => 7,
            Refusal::UnitCount => 8,
            Refusal::FileShort => 9,
            Refusal::FieldUnknown => 10,
            Refusal::PeriodMissing => 11,
            Refusal::BytesFollow => 12,
            Refusal::WordUnknown => 13,
            Refusal::SlotTaken => 20,
            Refusal::SlotEmpty => 21,
            Refusal::HyperPeriodLimit => 22,
            Refusal::HistoryLimit => 23,
            Refusal::InstantLimit => 24,
        }
    }
}

/// A refusal with a place and a layer.
#[derive(Clone, Copy, PartialEq, Eq, Debug)]
pub struct Fault {
    pub refusal: Refusal,
    pub place: usize,
}

impl Fault {
    /// What saw the fault.
    pub fn layer(&self) -> &'static str {
        match self.refusal.number() {
            2..=7 => "stream",
            9..=12 => "file",
            13 => "word",
            22..=23 => "table",
            _ => unreachable!("this refusal has no layer"),
        }
    }

    pub fn line(&self) -> String {
        format!("refused {} at {} {}", self.refusal.number(), self.place, self.layer())
    }
}
