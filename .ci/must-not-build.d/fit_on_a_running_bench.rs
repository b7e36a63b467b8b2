// refused: unknown-method: no method named `fit` found for type `Running<R>`
// over: refusal streams bus bench
// A running bench has no fit: it is stopped first.
use bench::Running;
use bus::Rule;
use refusal::Refusal;
use streams::Numbers;

pub fn fit_while_running<R: Rule>(
    running: &mut Running<R>,
    numbers: Numbers,
) -> Result<(), Refusal> {
    running.fit(0, numbers)
}
