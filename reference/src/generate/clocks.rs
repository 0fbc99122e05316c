//! Clocks that tick, and an exchange between two of them. Both run at the true rate, and true times
//! and constants are whole numbers of units, of either sign.

/// A clock reads the true time plus its constant, cut down to a multiple of its tick.
#[derive(Clone, Copy, Debug)]
pub struct Clock {
    pub constant: i128,
    /// A power of two, 1 to 2^32 units.
    pub tick: i128,
}

impl Clock {
    pub fn reading(&self, time: i128) -> u64 {
        let ticks = (time + self.constant).div_euclid(self.tick);
        (ticks * self.tick) as u64
    }
}

#[derive(Clone, Copy, Debug)]
pub struct Exchange {
    pub client: Clock,
    pub server: Clock,
    /// Sent, received, answered and arrived, in true time.
    pub times: [i128; 4],
}

impl Exchange {
    /// T1 to T4.
    pub fn readings(&self) -> [u64; 4] {
        let [sent, received, answered, arrived] = self.times;
        [
            self.client.reading(sent),
            self.server.reading(received),
            self.server.reading(answered),
            self.client.reading(arrived),
        ]
    }

    /// The true difference of the clocks.
    pub fn difference(&self) -> i128 {
        self.server.constant - self.client.constant
    }
}
