//! Exchanges between clocks that tick, as their readings show them.

use super::Marks;
use crate::count::outcome::Outcome;
use crate::refusal::Refusal::*;

/// The exponent of the largest tick.
const LARGEST: u32 = 32;

/// The exponent of the largest tick of which both readings are multiples.
fn exponent_of_tick(x: u64, y: u64) -> u32 {
    (x | y).trailing_zeros().min(LARGEST)
}

/// What a clock with this tick cuts off a reading at most.
fn most_cut(exponent: u32) -> i128 {
    (1 << exponent) - 1
}

/// Each tick of either clock where the exchange is accepted, and where it is refused by 18 and the
/// delay `d` is one that these ticks can make of a true one.
pub fn exchange(m: &mut Marks, t: [u64; 4], d: Option<i128>, outcome: Outcome) {
    let [t1, t2, t3, t4] = t;
    let client = exponent_of_tick(t1, t4);
    let server = exponent_of_tick(t2, t3);
    let nonzero = !t.contains(&0);
    let accepted = nonzero && outcome.passed();
    let cut = d >= Some(-most_cut(client) - most_cut(server));
    let refused = nonzero && outcome.by(DelayNegative) && cut;
    for (word, held) in [("accepted", accepted), ("18", refused)] {
        let name = |of: &str| format!("{word}-{of}-tick=2^");
        m.see_each(&name("client"), 0..=LARGEST, |k| held && client == k);
        m.see_each(&name("server"), 0..=LARGEST, |k| held && server == k);
        m.see_with(word, "-both-ticks=2^32", held && client.min(server) == LARGEST);
    }
}
