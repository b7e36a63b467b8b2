//! The table file (TABLE_FILE.md).

use crate::model::{Stream, Table};
use crate::refusal::{Fault, Refusal};

/// The table of a file, or the first test that fails.
pub fn read(file: &[u8]) -> Result<Table, Fault> {
    let short = Fault { refusal: Refusal::FileShort, place: file.len() };

    if file.is_empty() {
        return Err(short);
    }
    let slot_map = file[0];
    let mut place = 1;
    let mut table = Table::empty();
    let mut period_before: Option<u64> = None;

    for slot in 0..8 {
        if !bit(slot_map, slot) {
            continue;
        }
        let record = place;
        let fault = |refusal| Fault { refusal, place: record };

        if place == file.len() {
            return Err(short);
        }
        let field_map = file[place];
        place += 1;
        if bit(field_map, 6) || bit(field_map, 7) {
            return Err(fault(Refusal::FieldUnknown));
        }
        if period_before.is_none() && !bit(field_map, 0) {
            return Err(fault(Refusal::PeriodMissing));
        }

        // The fields that stand, lowest bit first, the high byte first.
        let mut fields: [Option<u64>; 6] = [None; 6];
        for (number, bytes) in [2, 2, 2, 1, 1, 2].into_iter().enumerate() {
            if !bit(field_map, number) {
                continue;
            }
            let mut value = 0;
            for _ in 0..bytes {
                if place == file.len() {
                    return Err(short);
                }
                value = value * 256 + u64::from(file[place]);
                place += 1;
            }
            fields[number] = Some(value);
        }

        // The fields that are missing.
        let period = match fields[0] {
            Some(period) => period,
            None => period_before.unwrap(),
        };
        let service = fields[1].unwrap_or(1);
        let deadline = fields[2].unwrap_or(period);
        let k = fields[3].unwrap_or(1);
        let m = fields[4].unwrap_or(k);
        let history = match fields[5] {
            Some(history) => history,
            // A k above 16 is refused before its history is looked at.
            None => (1 << k.min(16)) - 1,
        };

        let stream = Stream::new(period, deadline, service, m, k, history).map_err(fault)?;
        table.lay(slot as u64, stream).map_err(fault)?;
        period_before = Some(period);
    }

    if place < file.len() {
        return Err(Fault { refusal: Refusal::BytesFollow, place });
    }
    Ok(table)
}

fn bit(map: u8, number: usize) -> bool {
    map >> number & 1 == 1
}
