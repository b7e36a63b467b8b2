//! The model of MODEL.md, section by section and in its words, written to be
//! compared with it and not for speed.

use crate::refusal::Refusal;

pub const SLOTS: usize = 8;
pub const HYPER_PERIOD_LIMIT: u64 = 36_864;
pub const HISTORY_LIMIT: u64 = 1_048_576;
pub const UNIT_LIMIT: u64 = 65_535;
pub const INSTANT_LIMIT: u64 = 1_099_511_627_776;

// ---------------------------------------------------------------- Histories

/// The latest k outcomes of a stream, with its m and k.
#[derive(Clone, PartialEq, Eq, Debug)]
pub struct History {
    pub m: usize,
    pub k: usize,
    /// True for met, false for missed; the newest outcome first, so that
    /// outcomes[i] is bit i.
    outcomes: Vec<bool>,
}

impl History {
    pub fn new(m: u64, k: u64, bits: u64) -> Result<History, Refusal> {
        if k < 1 || k > 16 {
            return Err(Refusal::WindowRange);
        }
        if m < 1 || m > k {
            return Err(Refusal::RequiredRange);
        }
        if bits >> k != 0 {
            return Err(Refusal::HistoryWidth);
        }
        let outcomes = (0..k).map(|place| bits >> place & 1 == 1).collect();
        Ok(History { m: m as usize, k: k as usize, outcomes })
    }

    /// A new outcome enters and the oldest leaves.
    pub fn enter(&mut self, met: bool) {
        self.outcomes.insert(0, met);
        self.outcomes.pop();
    }

    pub fn passes(&self) -> bool {
        self.outcomes.iter().filter(|met| **met).count() >= self.m
    }

    /// The least number of misses in a row after which it no longer passes.
    pub fn distance(&self) -> u64 {
        let mut after = self.clone();
        let mut misses = 0;
        while after.passes() {
            after.enter(false);
            misses += 1;
        }
        misses
    }

    /// The least number of mets in a row after which it passes.
    pub fn restoring_distance(&self) -> u64 {
        let mut after = self.clone();
        let mut mets = 0;
        while !after.passes() {
            after.enter(true);
            mets += 1;
        }
        mets
    }
}

/// How many histories of k outcomes pass: the sum of (k over j), j from m to k.
pub fn passing_histories(m: usize, k: usize) -> u64 {
    (m..=k).map(|j| binomial(k, j)).sum()
}

/// n over j, by the triangle.
fn binomial(n: usize, j: usize) -> u64 {
    let mut row: Vec<u64> = vec![1];
    for _ in 0..n {
        let mut next = vec![1];
        for pair in row.windows(2) {
            next.push(pair[0] + pair[1]);
        }
        next.push(1);
        row = next;
    }
    row[j]
}

// ------------------------------------------------------------------ Streams

#[derive(Clone, PartialEq, Eq, Debug)]
pub struct Stream {
    /// T
    pub period: u64,
    /// D
    pub deadline: u64,
    /// C
    pub service: u64,
    pub history: History,
}

impl Stream {
    pub fn new(
        period: u64,
        deadline: u64,
        service: u64,
        m: u64,
        k: u64,
        bits: u64,
    ) -> Result<Stream, Refusal> {
        if period < 1 || period > 4096 {
            return Err(Refusal::PeriodRange);
        }
        if deadline < 1 || deadline > period {
            return Err(Refusal::DeadlineRange);
        }
        if service < 1 || service > deadline {
            return Err(Refusal::ServiceRange);
        }
        let history = History::new(m, k, bits)?;
        Ok(Stream { period, deadline, service, history })
    }
}

// ---------------------------------------------------------------- The table

#[derive(Clone, PartialEq, Eq, Debug)]
pub struct Table {
    /// Eight slots, each empty or with one stream.
    pub slots: Vec<Option<Stream>>,
}

impl Table {
    pub fn empty() -> Table {
        Table { slots: vec![None; SLOTS] }
    }

    /// P, or nothing where it passes its limit.
    pub fn hyper_period(&self) -> Option<u64> {
        let periods: Vec<u64> = self.slots.iter().flatten().map(|stream| stream.period).collect();
        (1..=HYPER_PERIOD_LIMIT).find(|p| periods.iter().all(|period| p % period == 0))
    }

    /// N, or nothing where it passes its limit.
    pub fn history_count(&self) -> Option<u64> {
        let mut n = 1;
        for stream in self.slots.iter().flatten() {
            n *= passing_histories(stream.history.m, stream.history.k);
            if n > HISTORY_LIMIT {
                return None;
            }
        }
        Some(n)
    }

    /// Lays a stream into a slot: tests 1, 20, 22, 23.
    pub fn lay(&mut self, slot: u64, stream: Stream) -> Result<(), Refusal> {
        if slot > 7 {
            return Err(Refusal::SlotRange);
        }
        let slot = slot as usize;
        if self.slots[slot].is_some() {
            return Err(Refusal::SlotTaken);
        }
        let mut after = self.clone();
        after.slots[slot] = Some(stream);
        if after.hyper_period().is_none() {
            return Err(Refusal::HyperPeriodLimit);
        }
        if after.history_count().is_none() {
            return Err(Refusal::HistoryLimit);
        }
        *self = after;
        Ok(())
    }
}

// ------------------------------------------------- Frames and ranking rules

/// What a ranking rule is shown of a ready frame; m and k are in the history.
pub struct ReadyFrame<'a> {
    pub slot: usize,
    pub period: u64,
    pub service: u64,
    pub deadline: u64,
    pub history: &'a History,
    pub time_left: u64,
}

/// The keys of the layers. Layer K has no letter here: no word names it.
#[derive(Clone, Copy, PartialEq, Eq, Debug)]
pub enum Key {
    Distance,
    RestoringDistance,
    TimeLeft,
    Period,
}

impl Key {
    fn of(self, frame: &ReadyFrame) -> u64 {
        match self {
            Key::Distance => frame.history.distance(),
            Key::RestoringDistance => frame.history.restoring_distance(),
            Key::TimeLeft => frame.time_left,
            Key::Period => frame.period,
        }
    }
}

#[derive(Clone, Copy, PartialEq, Eq, Debug)]
pub enum Bottom {
    LowerSlot,
    HigherSlot,
}

/// The keys from the first that decides to the last, and the bottom.
#[derive(Clone, PartialEq, Eq, Debug)]
pub struct Rule {
    keys: Vec<Key>,
    bottom: Bottom,
}

impl Rule {
    pub fn named(word: &str) -> Option<Rule> {
        use Bottom::*;
        use Key::*;
        let (keys, bottom) = match word {
            "DEL" => (vec![Distance, TimeLeft], LowerSlot),
            "DEH" => (vec![Distance, TimeLeft], HigherSlot),
            "DML" => (vec![Distance, Period], LowerSlot),
            "DREL" => (vec![Distance, RestoringDistance, TimeLeft], LowerSlot),
            "EL" => (vec![TimeLeft], LowerSlot),
            "ML" => (vec![Period], LowerSlot),
            _ => return None,
        };
        Some(Rule { keys, bottom })
    }

    pub fn goes_before(&self, one: &ReadyFrame, other: &ReadyFrame) -> bool {
        for key in &self.keys {
            if key.of(one) != key.of(other) {
                return key.of(one) < key.of(other);
            }
        }
        match self.bottom {
            Bottom::LowerSlot => one.slot < other.slot,
            Bottom::HigherSlot => one.slot > other.slot,
        }
    }

    /// The slot of the frame that goes before every other.
    pub fn front(&self, frames: &[ReadyFrame]) -> usize {
        let before_all = |one: &&ReadyFrame| {
            frames
                .iter()
                .filter(|other| other.slot != one.slot)
                .all(|other| self.goes_before(one, other))
        };
        frames.iter().find(before_all).expect("a lawful rule has a front").slot
    }
}

// ---------------------------------------------------------- The bus machine

#[derive(Clone, PartialEq, Eq, Debug)]
pub struct Waiting {
    pub frame: u64,
    /// The instant at which the frame is due.
    pub due: u64,
}

#[derive(Clone, PartialEq, Eq, Debug)]
pub struct Occupied {
    pub stream: Stream,
    /// The history as it stands.
    pub history: History,
    pub waiting: Option<Waiting>,
}

#[derive(Clone, PartialEq, Eq, Debug)]
pub struct Transit {
    pub slot: usize,
    pub frame: u64,
    pub end: u64,
    pub marked: bool,
}

#[derive(Clone, PartialEq, Eq, Debug)]
pub struct Bus {
    pub now: u64,
    pub slots: Vec<Option<Occupied>>,
    pub transit: Option<Transit>,
}

/// One outcome of a frame.
#[derive(Clone, PartialEq, Eq, Debug)]
pub struct Outcome {
    pub slot: usize,
    pub frame: u64,
    pub instant: u64,
    pub met: bool,
    /// Whether it is a dynamic failure.
    pub failure: bool,
}

/// What one unit of time has seen.
pub struct Unit {
    /// Whether a frame was in transit at step 3.
    pub busy: bool,
    pub outcomes: Vec<Outcome>,
}

impl Bus {
    /// A started table.
    pub fn started(table: &Table) -> Bus {
        let occupied = |stream: &Stream| Occupied {
            stream: stream.clone(),
            history: stream.history.clone(),
            waiting: None,
        };
        Bus {
            now: 0,
            slots: table.slots.iter().map(|slot| slot.as_ref().map(occupied)).collect(),
            transit: None,
        }
    }

    /// One unit of time.
    pub fn unit(&mut self, rule: &Rule, noisy: bool) -> Unit {
        let u = self.now;
        let mut outcomes = Vec::new();

        // 1. release
        for occupied in self.slots.iter_mut().flatten() {
            if u % occupied.stream.period == 0 {
                assert!(occupied.waiting.is_none(), "a release meets a waiting frame");
                occupied.waiting = Some(Waiting {
                    frame: u / occupied.stream.period + 1,
                    due: u + occupied.stream.deadline,
                });
            }
        }

        // 2. start
        if self.transit.is_none() {
            let waiting = self.waiting_frames();
            if !waiting.is_empty() {
                let front = rule.front(&waiting);
                let occupied = self.slots[front].as_mut().unwrap();
                let frame = occupied.waiting.take().unwrap().frame;
                let end = u + occupied.stream.service;
                self.transit = Some(Transit { slot: front, frame, end, marked: false });
            }
        }

        // 3. mark
        let busy = self.transit.is_some();
        if noisy {
            if let Some(transit) = &mut self.transit {
                transit.marked = true;
            }
        }

        // 4. tick
        self.now = u + 1;

        // 5. leave
        if let Some(transit) = self.transit.clone() {
            if transit.end == self.now {
                self.transit = None;
                outcomes.push(self.outcome(transit.slot, transit.frame, !transit.marked));
            }
        }

        // 6. drop
        for slot in 0..SLOTS {
            let Some(occupied) = &mut self.slots[slot] else {
                continue;
            };
            let Some(waiting) = occupied.waiting.clone() else {
                continue;
            };
            if self.now + occupied.stream.service > waiting.due {
                occupied.waiting = None;
                outcomes.push(self.outcome(slot, waiting.frame, false));
            }
        }

        Unit { busy, outcomes }
    }

    /// The waiting frames as a ranking rule is shown them.
    fn waiting_frames(&self) -> Vec<ReadyFrame<'_>> {
        let mut frames = Vec::new();
        for slot in 0..SLOTS {
            let Some(occupied) = &self.slots[slot] else {
                continue;
            };
            let Some(waiting) = &occupied.waiting else {
                continue;
            };
            frames.push(ReadyFrame {
                slot,
                period: occupied.stream.period,
                service: occupied.stream.service,
                deadline: occupied.stream.deadline,
                history: &occupied.history,
                time_left: waiting.due - self.now,
            });
        }
        frames
    }

    /// Enters an outcome into the history of its slot.
    fn outcome(&mut self, slot: usize, frame: u64, met: bool) -> Outcome {
        let history = &mut self.slots[slot].as_mut().unwrap().history;
        history.enter(met);
        let failure = !history.passes();
        Outcome { slot, frame, instant: self.now, met, failure }
    }

    fn histories(&self) -> Vec<Option<History>> {
        self.slots
            .iter()
            .map(|slot| slot.as_ref().map(|occupied| occupied.history.clone()))
            .collect()
    }

    /// Nothing waits and nothing is in transit.
    fn is_clear(&self) -> bool {
        self.transit.is_none()
            && self.slots.iter().flatten().all(|occupied| occupied.waiting.is_none())
    }
}

// ---------------------------------------------------------------- The bench

#[derive(Clone, PartialEq, Eq, Debug)]
pub struct Failure {
    pub slot: usize,
    pub frame: u64,
    pub instant: u64,
}

/// What `advance` and `disturb` tell.
#[derive(Clone, PartialEq, Eq, Debug)]
pub struct Tale {
    pub met: usize,
    pub missed: usize,
    pub failures: usize,
    pub first: Option<Failure>,
}

impl Tale {
    fn of(outcomes: &[Outcome]) -> Tale {
        Tale {
            met: outcomes.iter().filter(|outcome| outcome.met).count(),
            missed: outcomes.iter().filter(|outcome| !outcome.met).count(),
            failures: outcomes.iter().filter(|outcome| outcome.failure).count(),
            first: first_failure(outcomes),
        }
    }

    pub fn line(&self) -> String {
        let first = match &self.first {
            None => "none".to_string(),
            Some(f) => format!("slot {} frame {} instant {}", f.slot, f.frame, f.instant),
        };
        format!("met {} missed {} failures {} first {first}", self.met, self.missed, self.failures)
    }
}

/// The earliest failure by instant, and of several at one instant the one in
/// the lowest slot.
fn first_failure(outcomes: &[Outcome]) -> Option<Failure> {
    let first = outcomes
        .iter()
        .filter(|outcome| outcome.failure)
        .min_by_key(|outcome| (outcome.instant, outcome.slot))?;
    Some(Failure { slot: first.slot, frame: first.frame, instant: first.instant })
}

/// A laid bench.
#[derive(Clone, Debug)]
pub struct Laid {
    rule: Rule,
    table: Table,
}

impl Laid {
    pub fn new(rule: Rule) -> Laid {
        Laid { rule, table: Table::empty() }
    }

    #[allow(clippy::too_many_arguments)]
    pub fn fit(
        &mut self,
        slot: u64,
        period: u64,
        deadline: u64,
        service: u64,
        m: u64,
        k: u64,
        bits: u64,
    ) -> Result<(), Refusal> {
        if slot > 7 {
            return Err(Refusal::SlotRange);
        }
        let stream = Stream::new(period, deadline, service, m, k, bits)?;
        self.table.lay(slot, stream)
    }

    pub fn pull(&mut self, slot: u64) -> Result<(), Refusal> {
        if slot > 7 {
            return Err(Refusal::SlotRange);
        }
        if self.table.slots[slot as usize].is_none() {
            return Err(Refusal::SlotEmpty);
        }
        self.table.slots[slot as usize] = None;
        Ok(())
    }

    pub fn prime(&mut self, slot: u64, bits: u64) -> Result<(), Refusal> {
        if slot > 7 {
            return Err(Refusal::SlotRange);
        }
        let Some(stream) = &mut self.table.slots[slot as usize] else {
            return Err(Refusal::SlotEmpty);
        };
        stream.history = History::new(stream.history.m as u64, stream.history.k as u64, bits)?;
        Ok(())
    }

    /// The table of a file that has been read in the place of the whole table.
    pub fn load(&mut self, table: Table) {
        self.table = table;
    }

    pub fn start(self) -> Running {
        let bus = Bus::started(&self.table);
        Running { laid: self, bus }
    }
}

/// A running bench.
#[derive(Clone, Debug)]
pub struct Running {
    /// The laid bench from before the start.
    laid: Laid,
    bus: Bus,
}

impl Running {
    pub fn advance(&mut self, units: u64) -> Result<Tale, Refusal> {
        if units > UNIT_LIMIT {
            return Err(Refusal::UnitCount);
        }
        if self.bus.now + units > INSTANT_LIMIT {
            return Err(Refusal::InstantLimit);
        }
        let mut outcomes = Vec::new();
        for _ in 0..units {
            outcomes.extend(self.bus.unit(&self.laid.rule, false).outcomes);
        }
        Ok(Tale::of(&outcomes))
    }

    pub fn disturb(&mut self) -> Result<Tale, Refusal> {
        if self.bus.now + 1 > INSTANT_LIMIT {
            return Err(Refusal::InstantLimit);
        }
        Ok(Tale::of(&self.bus.unit(&self.laid.rule, true).outcomes))
    }

    pub fn stop(self) -> Laid {
        self.laid
    }

    fn hyper_period(&self) -> u64 {
        self.laid.table.hyper_period().unwrap()
    }

    pub fn forecast(&self) -> Forecast {
        let p = self.hyper_period();
        let n = self.laid.table.history_count().unwrap();
        let mut bus = self.bus.clone();
        // The histories of all boundaries so far; the place is the number.
        let mut boundaries: Vec<Vec<Option<History>>> = Vec::new();
        loop {
            if bus.now % p == 0 {
                assert!(bus.is_clear(), "a frame stands at a boundary");
                let here = bus.histories();
                for (number, histories) in boundaries.iter().enumerate() {
                    if *histories == here {
                        let second = boundaries.len() as u64;
                        assert!(second <= n + 1, "the later boundary is above N + 1");
                        return Forecast::Holds { first: number as u64, second };
                    }
                }
                boundaries.push(here);
            }
            let unit = bus.unit(&self.laid.rule, false);
            if let Some(failure) = first_failure(&unit.outcomes) {
                return Forecast::Fails(failure);
            }
        }
    }

    /// The figures of the forecast, if it holds.
    pub fn figures(&self) -> Option<Figures> {
        let Forecast::Holds { first, second } = self.forecast() else {
            return None;
        };
        let p = self.hyper_period();
        let mut bus = self.bus.clone();
        // To boundary 0, and from there to the first of the two.
        while bus.now % p != 0 {
            bus.unit(&self.laid.rule, false);
        }
        for _ in 0..first * p {
            bus.unit(&self.laid.rule, false);
        }
        let mut figures = Figures { length: 0, busy: 0, met: 0, missed: 0 };
        for _ in 0..(second - first) * p {
            let unit = bus.unit(&self.laid.rule, false);
            figures.length += 1;
            if unit.busy {
                figures.busy += 1;
            }
            for outcome in unit.outcomes {
                if outcome.met {
                    figures.met += 1;
                } else {
                    figures.missed += 1;
                }
            }
        }
        Some(figures)
    }
}

// ------------------------------------------------- The forecast and figures

#[derive(Clone, PartialEq, Eq, Debug)]
pub enum Forecast {
    /// The numbers of the two boundaries.
    Holds {
        first: u64,
        second: u64,
    },
    Fails(Failure),
}

#[derive(Clone, PartialEq, Eq, Debug)]
pub struct Figures {
    pub length: u64,
    pub busy: u64,
    pub met: u64,
    pub missed: u64,
}

impl Figures {
    pub fn load(&self) -> u64 {
        1000 * self.busy / self.length
    }

    pub fn line(&self) -> String {
        format!(
            "length {} busy {} met {} missed {} load {}",
            self.length,
            self.busy,
            self.met,
            self.missed,
            self.load()
        )
    }
}

#[cfg(test)]
mod tests {
    use super::*;

    fn history(m: u64, k: u64, bits: u64) -> History {
        History::new(m, k, bits).unwrap()
    }

    #[test]
    fn distances_of_the_document() {
        assert_eq!(history(3, 5, 0b11011).distance(), 2);
        assert_eq!(history(3, 5, 0b10111).distance(), 3);
        assert_eq!(history(2, 3, 0b101).distance(), 1);
        assert_eq!(history(2, 3, 0b011).distance(), 2);
        assert_eq!(history(4, 6, 0b100011).restoring_distance(), 2);
        assert_eq!(history(4, 6, 0b111000).restoring_distance(), 4);
        assert_eq!(history(4, 6, 0b000111).restoring_distance(), 1);
        assert_eq!(history(5, 6, 0b101110).restoring_distance(), 2);
    }

    #[test]
    fn the_distance_is_k_plus_1_less_the_place_of_the_mth_one() {
        for k in 1..=8 {
            for m in 1..=k {
                for bits in 0..1 << k {
                    let ones: Vec<u64> = (1..=k).filter(|l| bits >> (l - 1) & 1 == 1).collect();
                    let l = ones.get(m as usize - 1).copied().unwrap_or(k + 1);
                    assert_eq!(history(m, k, bits).distance(), k + 1 - l);
                }
            }
        }
    }

    #[test]
    fn the_count_of_passing_histories_is_that_of_all_that_pass() {
        assert_eq!(passing_histories(2, 4), 11);
        assert_eq!(passing_histories(3, 4), 5);
        assert_eq!(passing_histories(1, 16), 65_535);
        for k in 1..=10 {
            for m in 1..=k {
                let pass = (0..1 << k).filter(|bits| history(m, k, *bits).passes()).count();
                assert_eq!(passing_histories(m as usize, k as usize), pass as u64);
            }
        }
    }

    #[test]
    fn limits_of_the_document() {
        let stream = |period, m, k| Stream::new(period, period, 1, m, k, (1 << k) - 1).unwrap();
        let both = |one: Stream, other: Stream| {
            let mut table = Table::empty();
            table.lay(0, one).unwrap();
            table
                .lay(1, other)
                .map(|()| (table.hyper_period().unwrap(), table.history_count().unwrap()))
        };
        assert_eq!(both(stream(4096, 1, 1), stream(9, 1, 1)), Ok((36_864, 1)));
        assert_eq!(both(stream(4096, 1, 1), stream(11, 1, 1)), Err(Refusal::HyperPeriodLimit));
        assert_eq!(both(stream(1, 1, 16), stream(1, 3, 5)), Ok((1, 1_048_560)));
        assert_eq!(both(stream(1, 1, 16), stream(1, 1, 5)), Err(Refusal::HistoryLimit));
    }
}
