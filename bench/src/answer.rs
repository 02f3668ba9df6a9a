//! What a plan says, whoever planned.

#[derive(Clone, Debug, PartialEq, Eq)]
pub enum Answer {
    Way {
        moves: Vec<u8>,
        time: u64,
        rounds: u64,
    },
    NoWay {
        rounds: u64,
    },
    /// The charts need more nodes than there are slots: in which round, and at which move, if one was worked on.
    NoRoom {
        round: u64,
        number: Option<u8>,
    },
    /// Refused under another number.
    Refused(u8),
}

impl Answer {
    pub fn rounds(&self) -> Option<u64> {
        match self {
            Answer::Way { rounds, .. } | Answer::NoWay { rounds } => Some(*rounds),
            _ => None,
        }
    }

    /// Whether two answers agree in all that they both say; a search by scenes counts no rounds, and says so by `None`.
    pub fn agrees(&self, other: &Option<(u64, Vec<u8>)>) -> bool {
        match (self, other) {
            (Answer::Way { moves, time, .. }, Some((t, m))) => moves == m && time == t,
            (Answer::NoWay { .. }, None) => true,
            _ => false,
        }
    }
}
