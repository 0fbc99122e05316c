//! Offset, half and delay of four timestamps as an ordinary program works them out. Only
//! `tests/benchmark` uses it.

use crate::refusal::Refusal;

pub struct Measured {
    pub offset: i64,
    pub half: u8,
    pub delay: i64,
}

/// 16 s in units of 2^-32 s.
const LIMIT: i64 = 1 << 36;

/// How one timestamp lies to another, with the units between them.
enum Difference {
    Ahead(i64),
    Behind(i64),
    NoOrder,
}

impl Difference {
    fn new(x: u64, y: u64) -> Difference {
        match x.wrapping_sub(y) as i64 {
            units @ 0.. => Difference::Ahead(units),
            i64::MIN => Difference::NoOrder,
            units => Difference::Behind(units),
        }
    }

    /// The units, if the first is not behind; else it is refused as given.
    fn ahead(self, behind: Refusal) -> Result<i64, Refusal> {
        match self {
            Difference::Ahead(units) => Ok(units),
            Difference::Behind(_) => Err(behind),
            Difference::NoOrder => Err(Refusal::NoOrder),
        }
    }

    fn units(self) -> Result<i64, Refusal> {
        match self {
            Difference::Ahead(units) | Difference::Behind(units) => Ok(units),
            Difference::NoOrder => Err(Refusal::NoOrder),
        }
    }
}

pub fn measure(t1: u64, t2: u64, t3: u64, t4: u64) -> Result<Measured, Refusal> {
    let trip = Difference::new(t4, t1).ahead(Refusal::ArrivedBeforeSent)?;
    if trip > LIMIT {
        return Err(Refusal::ArrivedTooLate);
    }
    let hold = Difference::new(t3, t2).ahead(Refusal::AnsweredBeforeReceived)?;
    if trip < hold {
        return Err(Refusal::DelayNegative);
    }
    let p = Difference::new(t2, t1).units()?;
    let q = Difference::new(t3, t4).units()?;
    if p < q {
        return Err(Refusal::FirstBelowSecond);
    }
    let sum = i128::from(p) + i128::from(q);
    Ok(Measured { offset: (sum >> 1) as i64, half: (sum & 1) as u8, delay: trip - hold })
}

#[cfg(test)]
mod tests {
    use crate::timestamp::{self, LIMIT, SECOND};

    fn measured(t: [u64; 4]) -> Result<timestamp::Measured, super::Refusal> {
        let [t1, t2, t3, t4] = t;
        let direct = super::measure(t1, t2, t3, t4)?;
        let super::Measured { offset, half, delay } = direct;
        Ok(timestamp::Measured { offset, half, delay })
    }

    #[test]
    fn measures_as_the_answers_have_it() {
        let spans = [0, 1, 2, 5, LIMIT, LIMIT + 1];
        let starts = [0, 1 << 63, 0u64.wrapping_sub(2), (1 << 63) - 2];
        let all = starts.iter().flat_map(|start| spans.map(|span| start.wrapping_add(span)));
        let times: Vec<u64> = all.map(|time| time.wrapping_add(SECOND)).collect();
        let pairs = || times.iter().flat_map(|&x| times.iter().map(move |&y| (x, y)));
        for ((t2, t3), t4) in pairs().flat_map(|pair| times.iter().map(move |&t4| (pair, t4))) {
            let t = [SECOND, t2, t3, t4];
            assert_eq!(measured(t), timestamp::measure(SECOND, t2, t3, t4), "{t:?}");
        }
    }
}
