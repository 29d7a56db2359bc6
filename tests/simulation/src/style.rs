//! How the peers and the system of a run behave. Runs differ in this, so that each kind of company is met soon.

use crate::random::Random;

/// How many sessions a run has, and of what kind.
#[derive(Clone, Copy, PartialEq, Eq)]
pub enum Company {
    /// Up to 120 sessions at once and 300 in all, with peers of each habit.
    Mixed,
    /// At most four sessions at once.
    Few,
    /// More than 64 sessions at once, which come together and fall silent. So the last deadlines are those of late rows.
    Crowd,
}

impl Company {
    /// Returns the company of the next run.
    pub fn new(random: &mut Random) -> Company {
        match random.below(8) {
            0 => Company::Crowd,
            1 | 2 => Company::Few,
            _ => Company::Mixed,
        }
    }

    /// Returns the most sessions at once, and the number of sessions in all.
    pub fn counts(self, random: &mut Random) -> (u64, u64) {
        match self {
            Company::Mixed if random.one_in(2) => (random.between(1, 64), random.between(1, 300)),
            Company::Mixed => (random.between(65, 120), random.between(1, 300)),
            Company::Few => (random.between(1, 4), random.between(1, 60)),
            Company::Crowd => {
                let count = random.between(80, 120);
                (count, count)
            }
        }
    }
}

/// How the peers and the system of a run behave.
#[derive(Clone, Copy)]
pub struct Style {
    /// Peers act at multiples of this time, in milliseconds. So many act at once if it is long.
    pub beat: u64,
    /// The most bytes that the system holds for a peer.
    pub capacity: u64,
    /// Of 24 peers so many flood, so many stop reading, and so many fall silent.
    pub floods: u64,
    pub stops: u64,
    pub silences: u64,
    /// The most messages of a peer.
    pub messages: u64,
    /// The most bots that come at one time.
    pub crowd: u64,
    /// How often calls are interrupted one after the other, at most.
    pub interrupted: u64,
    /// One of so many polls reports little.
    pub scarce: u64,
    /// One of so many connects is refused at once, and one of so many later.
    pub refused: u64,
}

impl Style {
    /// Returns the style of a run in this company.
    pub fn new(company: Company, random: &mut Random) -> Style {
        let style = Style::mixed(random);
        if company != Company::Crowd {
            return style;
        }
        Style {
            floods: 0,
            stops: 0,
            silences: 24,
            messages: 2,
            crowd: 80,
            refused: 200,
            ..style
        }
    }

    /// Returns a style of any kind.
    fn mixed(random: &mut Random) -> Style {
        let beat = match random.below(4) {
            0 => random.between(20, 1_500),
            1 => random.between(2, 20),
            _ => 1,
        };
        let capacity = match random.below(4) {
            0 => random.between(1, 60),
            1 => random.between(60, 2_000),
            _ => 20_000,
        };
        let crowd = match random.below(3) {
            0 => 80,
            1 => 12,
            _ => 4,
        };
        let silences = match random.below(4) {
            0 => 16,
            _ => random.below(6),
        };
        Style {
            beat,
            capacity,
            floods: random.below(5),
            stops: random.below(6),
            silences,
            messages: random.between(2, 30),
            crowd,
            interrupted: random.between(1, 12),
            scarce: random.between(2, 20),
            refused: random.between(3, 60),
        }
    }

    /// Returns the time at which a peer acts that would act at `time`.
    pub fn on_beat(&self, time: u64) -> u64 {
        if self.beat < 2 {
            return time;
        }
        let over = time % self.beat;
        if over == 0 {
            time
        } else {
            time.saturating_add(self.beat.saturating_sub(over))
        }
    }
}
