//! The three implementations, called in one way, and that they agree.

use oracle::services as plain;
use tuned::Answer;

/// Bytes lent for an answer: enough for every list and every short form of the benchmark.
pub const ROOM: usize = 1 << 22;
/// No formula of the benchmark needs more steps.
pub const BUDGET: u32 = u32::MAX;

/// Ours is the library; tuned the Rust version made for speed; plain the oracle of the tests.
#[derive(Clone, Copy, Debug, PartialEq, Eq)]
pub enum Peer {
    Ours,
    Tuned,
    Plain,
}

pub const PEERS: [Peer; 3] = [Peer::Ours, Peer::Tuned, Peer::Plain];

/// The library's answer as that of the others.
fn ours(numbers: archive::Numbers) -> Answer {
    let archive::Numbers { number, place, count, last } = numbers;
    Answer { number, place, count, last }
}

/// The plain version gives its output as bytes of its own; they go to the output as the others' do.
fn write_plain(answer: plain::Answer, out: &mut [u8]) -> Answer {
    let text = answer.output.unwrap_or_default();
    out[..text.len()].copy_from_slice(&text);
    Answer { number: answer.number, place: answer.place, count: answer.count, last: text.len() as u64 }
}

impl Peer {
    pub fn check(self, package: &[u8]) -> Answer {
        match self {
            Peer::Ours => ours(archive::check(Some(package))),
            Peer::Tuned => tuned::check(package),
            Peer::Plain => write_plain(plain::check(package), &mut []),
        }
    }

    pub fn list_overlaps(self, package: &[u8], out: &mut [u8]) -> Answer {
        match self {
            Peer::Ours => ours(archive::list_overlaps(Some(package), Some(out))),
            Peer::Tuned => tuned::list_overlaps(package, out),
            Peer::Plain => write_plain(plain::list_overlaps(package, out.len()), out),
        }
    }

    pub fn short_form(self, package: &[u8], formula: &[u8], out: &mut [u8]) -> Answer {
        match self {
            Peer::Ours => ours(archive::short_form(Some(package), Some(formula), BUDGET, Some(out))),
            Peer::Tuned => tuned::short_form(package, formula, BUDGET, out),
            Peer::Plain => write_plain(plain::short_form(package, formula, BUDGET, out.len()), out),
        }
    }
}

/// The answer that all three give, bytes of the output included. Ends the program where they differ.
fn agreed(name: &str, call: impl Fn(Peer, &mut [u8]) -> Answer) -> Answer {
    let answers = PEERS.map(|peer| {
        let mut out = vec![0; ROOM];
        let answer = call(peer, &mut out);
        out.truncate(answer.last as usize);
        (answer, out)
    });
    for (peer, other) in PEERS.iter().zip(&answers) {
        assert!(*other == answers[0], "{name}: {peer:?} answers {:?}, Ours {:?}", other.0, answers[0].0);
    }
    answers[0].0
}

/// The check's answer: the package is accepted by all three.
pub fn accepted(name: &str, package: &[u8]) -> Answer {
    let answer = agreed(name, |peer, _| peer.check(package));
    assert_eq!(answer.number, 0, "{name} is accepted");
    answer
}

pub fn listed(name: &str, package: &[u8]) -> Answer {
    let answer = agreed(name, |peer, out| peer.list_overlaps(package, out));
    assert_eq!(answer.number, 0, "{name} is listed");
    answer
}

/// The steps to the short form; none where a step leaves over 512 terms (refusal 17).
pub fn steps(name: &str, package: &[u8], formula: &[u8]) -> Option<u64> {
    let answer = agreed(name, |peer, out| peer.short_form(package, formula, out));
    assert!(matches!(answer.number, 0 | 17), "{name} has a short form or grows too large: {answer:?}");
    (answer.number == 0).then_some(answer.count)
}
