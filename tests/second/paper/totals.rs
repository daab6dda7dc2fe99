//! Request 13 of document 02: the running totals carry live and withdrawn
//! payments apart, and each of the four numbers is a sum over the records of its
//! own. Together they are what document 01 calls payments and cents: trailers
//! and limits go by both.

use super::places::MOVEMENT;

/// What a payment's first record, A, J or O, says of it.
#[derive(Clone, Copy, PartialEq, Eq, PartialOrd, Ord, Debug)]
pub enum Movement {
    Live,
    Withdrawn,
}

pub const MOVEMENTS: [Movement; 2] = [Movement::Live, Movement::Withdrawn];

impl Movement {
    /// Place 15 alone decides; the instruction code at 16-17 has no say.
    pub fn of(first_record: &[u8]) -> Movement {
        if MOVEMENT.of(first_record) == [Movement::Withdrawn.code()] {
            Movement::Withdrawn
        } else {
            Movement::Live
        }
    }

    pub fn code(self) -> u8 {
        b'0' + self.number() as u8
    }

    pub fn number(self) -> u64 {
        match self {
            Movement::Live => 0,
            Movement::Withdrawn => 9,
        }
    }

    pub fn other(self) -> Movement {
        match self {
            Movement::Live => Movement::Withdrawn,
            Movement::Withdrawn => Movement::Live,
        }
    }
}

/// Some payments, and their cents.
#[derive(Clone, Copy, Default, PartialEq, Eq)]
pub struct Share {
    pub payments: u64,
    pub cents: u128,
}

impl Share {
    fn add(&mut self, other: Share) {
        self.payments += other.payments;
        self.cents += other.cents;
    }
}

#[derive(Clone, Copy, Default, PartialEq, Eq)]
pub struct Totals {
    pub live: Share,
    pub withdrawn: Share,
}

impl Totals {
    pub fn share_mut(&mut self, movement: Movement) -> &mut Share {
        match movement {
            Movement::Live => &mut self.live,
            Movement::Withdrawn => &mut self.withdrawn,
        }
    }

    pub fn add_payment(&mut self, movement: Movement, cents: u64) {
        self.share_mut(movement).add(Share {
            payments: 1,
            cents: u128::from(cents),
        });
    }

    pub fn add(&mut self, other: Totals) {
        self.live.add(other.live);
        self.withdrawn.add(other.withdrawn);
    }

    /// Live and withdrawn ones together.
    pub fn payments(&self) -> u64 {
        self.live.payments + self.withdrawn.payments
    }

    /// Of live and withdrawn payments together.
    pub fn cents(&self) -> u128 {
        self.live.cents + self.withdrawn.cents
    }
}
