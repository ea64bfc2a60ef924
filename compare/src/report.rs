//! What the tool prints.

use crate::checker::{Verdict, Violation, CALL};
use crate::Refusal;

/// The lines of a verdict; the calls of an accepted claim lie at the front of
/// `memory`.
pub fn report(verdict: &Verdict, memory: &[u8]) -> Vec<u8> {
    let text = match *verdict {
        Verdict::Accepted(count) => {
            let calls = memory.chunks_exact(CALL).take(count);
            let line = |call: &[u8]| format!("{:02x} {:02x} {:02x}\n", call[0], call[1], call[2]);
            std::iter::once("accepted\n".to_string()).chain(calls.map(line)).collect()
        }
        Verdict::Violated(Violation { rule, method, address }) => {
            format!("violated {rule:02x} {method:02x} {address:02x}\n")
        }
        Verdict::Refused(Refusal { number, line }) => format!("refused {number:02x} {line:08x}\n"),
    };
    text.into_bytes()
}

#[cfg(test)]
mod tests {
    use super::*;

    #[test]
    fn each_verdict_has_its_lines() {
        let printed =
            |verdict| String::from_utf8(report(&verdict, &[0, 1, 10, 15, 31, 2])).unwrap();
        assert_eq!(printed(Verdict::Accepted(0)), "accepted\n");
        assert_eq!(printed(Verdict::Accepted(2)), "accepted\n00 01 0a\n0f 1f 02\n");
        let violation = Violation { rule: 10, method: 15, address: 31 };
        assert_eq!(printed(Verdict::Violated(violation)), "violated 0a 0f 1f\n");
        assert_eq!(printed(Refusal::new(23, 0).into()), "refused 17 00000000\n");
        assert_eq!(printed(Refusal::new(10, 4097).into()), "refused 0a 00001001\n");
    }
}
