//! What the program prints for one whole standard input (PROGRAM.md).

use crate::model::{Forecast, Laid, Rule};
use crate::refusal::{Fault, Refusal};
use crate::table_file;

/// The program reads at most this many bytes.
pub const MOST_BYTES: usize = 4096;

pub fn respond(input: &[u8]) -> String {
    let input = &input[..input.len().min(MOST_BYTES)];
    match bench(input) {
        Err(fault) => format!("{}\n", fault.line()),
        Ok(laid) => {
            let running = laid.start();
            let mut text = forecast_line(&running.forecast()) + "\n";
            if let Some(figures) = running.figures() {
                text += &(figures.line() + "\n");
            }
            text
        }
    }
}

/// The bench, laid with the table of the input under the rule of its word.
fn bench(input: &[u8]) -> Result<Laid, Fault> {
    let unknown = Fault { refusal: Refusal::WordUnknown, place: 0 };
    let end = input.iter().position(|byte| *byte == 10).ok_or(unknown)?;
    let word = std::str::from_utf8(&input[..end]).map_err(|_| unknown)?;
    let rule = Rule::named(word).ok_or(unknown)?;
    let table = table_file::read(&input[end + 1..])?;
    let mut laid = Laid::new(rule);
    laid.load(table);
    Ok(laid)
}

pub fn forecast_line(forecast: &Forecast) -> String {
    match forecast {
        Forecast::Holds { first, second } => format!("holds {first} {second}"),
        Forecast::Fails(failure) => format!(
            "fails slot {} frame {} instant {}",
            failure.slot, failure.frame, failure.instant
        ),
    }
}
