//! Holds what a call did to what the paper says that it does: the answer, and every octet of every lent range and guard.

use crate::guard::Lent;
use crate::report::hex;
use paper::answer::Outcome;
use std::fmt::Display;

/// The lines that tell a difference; none where there is no difference.
pub fn differences<A>(expected: &Outcome<A>, given: A, inputs: &[&Lent], output: Option<&Lent>) -> Vec<String>
where
    A: PartialEq + Display,
{
    let mut harm: Vec<String> = inputs.iter().filter_map(|lent| strayed("input", lent, 0)).collect();
    let written = expected.written.len();
    let mut right = expected.answer == given;
    if let Some(output) = output {
        harm.extend(strayed("output", output, written));
        right &= output.content()[..written] == expected.written;
    }
    if right && harm.is_empty() {
        return harm;
    }
    let mut lines = vec![
        format!("expected: {}", told(&expected.answer, &expected.written)),
        format!("given:    {}", told(&given, output.map_or(&[], |output| &output.content()[..written]))),
    ];
    lines.append(&mut harm);
    lines
}

fn told(answer: &impl Display, written: &[u8]) -> String {
    if written.is_empty() {
        return answer.to_string();
    }
    format!("{answer}, the output begins {}", hex(written))
}

fn strayed(name: &str, lent: &Lent, written: usize) -> Option<String> {
    let place = lent.changed(written)?;
    Some(format!("changed:  the {name}'s place {place}, of {} lent octets", lent.length()))
}
