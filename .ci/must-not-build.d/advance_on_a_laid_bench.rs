// refused: unknown-method: no method named `advance` found for type `Laid<R>`
// over: refusal bus bench
// A laid bench has no advance: it is started first.
use bench::Laid;
use bus::Rule;
use bus::Tally;
use refusal::Refusal;

pub fn advance_at_rest<R: Rule>(laid: &mut Laid<R>) -> Result<Tally, Refusal> {
    laid.advance(1)
}
