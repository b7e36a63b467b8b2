//! Scripts of bench calls (SCRIPTS.md).

use crate::hex;
use crate::model::{Laid, Rule, Running, Tale};
use crate::program::forecast_line;
use crate::refusal::Refusal;
use crate::table_file;

/// What a script has so far.
pub enum Bench {
    None,
    Laid(Laid),
    Running(Running),
}

impl Bench {
    /// Works one line and gives its answer, or nothing where the line is no
    /// call of the bench as it is by then.
    pub fn call(&mut self, line: &str) -> Option<String> {
        let words: Vec<&str> = line.split_whitespace().collect();
        let (name, arguments) = words.split_first()?;

        if *name == "rule" {
            let [word] = arguments else { return None };
            *self = Bench::Laid(Laid::new(Rule::named(word)?));
            return Some("ok".to_string());
        }
        if *name == "load" {
            let text = match arguments {
                [] => "",
                [text] => text,
                _ => return None,
            };
            let file = hex::bytes(text)?;
            let Bench::Laid(laid) = self else { return None };
            return Some(match table_file::read(&file) {
                Err(fault) => fault.line(),
                Ok(table) => {
                    laid.load(table);
                    "ok".to_string()
                }
            });
        }

        let mut numbers = Vec::new();
        for argument in arguments {
            numbers.push(number(argument)?);
        }
        match (*name, numbers.as_slice(), &mut *self) {
            ("fit", &[slot, t, d, c, m, k, h], Bench::Laid(laid)) => {
                Some(answer(laid.fit(slot, t, d, c, m, k, h)))
            }
            ("pull", &[slot], Bench::Laid(laid)) => Some(answer(laid.pull(slot))),
            ("prime", &[slot, h], Bench::Laid(laid)) => Some(answer(laid.prime(slot, h))),
            ("start", &[], Bench::Laid(laid)) => {
                *self = Bench::Running(laid.clone().start());
                Some("ok".to_string())
            }
            ("advance", &[units], Bench::Running(running)) => Some(tale(running.advance(units))),
            ("disturb", &[], Bench::Running(running)) => Some(tale(running.disturb())),
            ("stop", &[], Bench::Running(running)) => {
                *self = Bench::Laid(running.clone().stop());
                Some("ok".to_string())
            }
            ("forecast", &[], Bench::Running(running)) => Some(forecast_line(&running.forecast())),
            ("figures", &[], Bench::Running(running)) => Some(match running.figures() {
                Some(figures) => figures.line(),
                None => "none".to_string(),
            }),
            _ => None,
        }
    }
}

fn answer(result: Result<(), Refusal>) -> String {
    match result {
        Ok(()) => "ok".to_string(),
        Err(refusal) => format!("refused {}", refusal.number()),
    }
}

fn tale(result: Result<Tale, Refusal>) -> String {
    match result {
        Ok(tale) => tale.line(),
        Err(refusal) => format!("refused {}", refusal.number()),
    }
}

/// A decimal number, or a hexadecimal one behind `0x`; the largest of 64 bits
/// for one that passes 64 bits.
fn number(text: &str) -> Option<u64> {
    let (digits, base) = match text.strip_prefix("0x") {
        Some(digits) => (digits, 16),
        None => (text, 10),
    };
    if digits.is_empty() {
        return None;
    }
    let mut value: u64 = 0;
    for digit in digits.chars() {
        let digit = digit.to_digit(base)?;
        value = value.saturating_mul(u64::from(base)).saturating_add(u64::from(digit));
    }
    Some(value)
}
