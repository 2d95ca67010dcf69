//! The network of a run. It loses, repeats and delays datagrams.

use crate::generate::random::Random;

/// How one direction of a network behaves, in so many of a hundred cases.
#[derive(Clone, Copy)]
pub struct Air {
    pub loses: usize,
    pub repeats: usize,
    pub delays: usize,
}

const CLEAR: Air = Air {
    loses: 1,
    repeats: 3,
    delays: 5,
};
const ROUGH: Air = Air {
    loses: 15,
    repeats: 10,
    delays: 25,
};
const STORM: Air = Air {
    loses: 70,
    repeats: 5,
    delays: 20,
};
const ECHO: Air = Air {
    loses: 3,
    repeats: 50,
    delays: 30,
};

const MUDDLE: Air = Air {
    loses: 8,
    repeats: 30,
    delays: 75,
};

/// How the network and the clocks behave.
#[derive(Clone, Copy)]
pub struct Weather {
    pub to_client: Air,
    pub to_server: Air,
    /// How often the WAIT timer runs out, beside the other events.
    pub waits: usize,
    /// The same of the RESEND timer.
    pub resends: usize,
    /// The same of the CANCEL timer.
    pub cancels: usize,
}

/// In two of them one side hears little, and the other one much of what is over; in the last one
/// hardly anything comes in its order.
const WEATHERS: [Weather; 7] = [
    Weather {
        to_client: CLEAR,
        to_server: CLEAR,
        waits: 1,
        resends: 1,
        cancels: 1,
    },
    Weather {
        to_client: ROUGH,
        to_server: ROUGH,
        waits: 8,
        resends: 8,
        cancels: 4,
    },
    Weather {
        to_client: STORM,
        to_server: STORM,
        waits: 60,
        resends: 60,
        cancels: 3,
    },
    Weather {
        to_client: ECHO,
        to_server: ECHO,
        waits: 6,
        resends: 8,
        cancels: 2,
    },
    Weather {
        to_client: STORM,
        to_server: ECHO,
        waits: 2,
        resends: 80,
        cancels: 2,
    },
    Weather {
        to_client: ECHO,
        to_server: STORM,
        waits: 16,
        resends: 4,
        cancels: 8,
    },
    Weather {
        to_client: MUDDLE,
        to_server: MUDDLE,
        waits: 20,
        resends: 4,
        cancels: 4,
    },
];

impl Weather {
    pub fn any(random: &mut Random) -> Weather {
        random.pick(&WEATHERS)
    }
}

/// What one side has sent to the other in a run.
pub struct Line {
    sent: Vec<Vec<u8>>,
    /// The places of those that are under way.
    under_way: Vec<usize>,
}

impl Line {
    pub fn new() -> Line {
        Line {
            sent: Vec::new(),
            under_way: Vec::new(),
        }
    }

    pub fn send(&mut self, datagram: &[u8]) {
        self.under_way.push(self.sent.len());
        self.sent.push(datagram.to_vec());
    }

    /// The datagram at a place among all that were sent.
    pub fn sent(&self, place: usize) -> Option<Vec<u8>> {
        self.sent.get(place).cloned()
    }

    pub fn is_busy(&self) -> bool {
        !self.under_way.is_empty()
    }

    /// A datagram that arrives: one that is under way, mostly the first, or any that was sent
    /// earlier. None where nothing arrives.
    pub fn deliver(&mut self, air: Air, random: &mut Random) -> Option<Vec<u8>> {
        while self.is_busy() && random.percent(air.loses) {
            self.take(air, random);
        }
        if !self.is_busy() || random.percent(air.repeats) {
            return self.any_sent(random);
        }
        let place = self.take(air, random);
        Some(self.sent[place].clone())
    }

    fn take(&mut self, air: Air, random: &mut Random) -> usize {
        let index = match random.percent(air.delays) {
            true => random.between(0, self.under_way.len() - 1),
            false => 0,
        };
        self.under_way.remove(index)
    }

    /// Every second time one of the last few.
    fn any_sent(&self, random: &mut Random) -> Option<Vec<u8>> {
        let count = self.sent.len();
        if count == 0 {
            return None;
        }
        let first = match random.percent(50) {
            true => 0,
            false => count.saturating_sub(6),
        };
        Some(self.sent[random.between(first, count - 1)].clone())
    }
}
