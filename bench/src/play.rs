//! The answers as numbers, and a list of calls played on a bay, as the interface of the library has them.

use crate::bay::{Bay, Shown, Stepped};
use crate::check::verdict;
use crate::in_domain;
use crate::number::Trap;
use crate::refusal::{Refusal, Rule};

pub const RECORD_BYTES: usize = 12;
pub const NO_DOMAIN: u64 = 255;

/// An answer as a number; of a refusal by rule 15, which variables it may name.
#[derive(Clone, Copy, PartialEq, Eq, Debug)]
pub struct Answer {
    pub number: u64,
    pub uncovered: u16,
}

/// A call of a list, with the bytes of its sheet if it is an offer.
#[derive(Clone, Copy, PartialEq, Eq, Debug)]
pub enum Call<'a> {
    Offer { domain: u8, sheet: &'a [u8] },
    Start,
    Set { input: u32, value: i32 },
    Step { reading: i32 },
    Stop,
    Show { variable: u32 },
}

impl Answer {
    fn accepted(number: u64) -> Answer {
        Answer { number, uncovered: 0 }
    }

    fn refused(refusal: Refusal) -> Answer {
        let [rule, place, way, variable] = refusal.numbers().map(u64::from);
        let number = rule | place << 8 | way << 24 | variable << 32;
        Answer { number, uncovered: refusal.uncovered }
    }

    fn of<T>(answer: Result<T, Refusal>, number: impl FnOnce(T) -> u64) -> Answer {
        answer.map_or_else(Answer::refused, |accepted| Answer::accepted(number(accepted)))
    }

    /// Whether another's number says the same: equal, but for which uncovered variable rule 15 names.
    pub fn agrees(&self, other: u64) -> bool {
        if self.number & 0xff != Rule::NotCovered as u64 {
            return self.number == other;
        }
        const VARIABLE: u64 = 0xff << 32;
        let named = (other & VARIABLE) >> 32;
        self.number & !VARIABLE == other & !VARIABLE && named < 16 && self.uncovered >> named & 1 == 1
    }
}

/// The verdict on a sheet, as the interface answers it.
#[inline]
pub fn verdict_answer(domain: u32, sheet: &[u8]) -> Answer {
    in_domain!(
        domain,
        D => Answer::of(verdict::<D>(sheet), |taken| (taken.rows.len() as u64) << 8),
        else Answer::accepted(NO_DOMAIN)
    )
}

fn offer(bay: &mut Bay, domain: u8, sheet: &[u8]) -> Answer {
    in_domain!(
        domain,
        D => Answer::of(bay.offer::<D>(sheet), |places| u64::from(places) << 8),
        else Answer::accepted(NO_DOMAIN)
    )
}

fn stepped(stepped: Stepped) -> u64 {
    let (place, how) = match stepped {
        Stepped::At(place) => (place, 0),
        Stepped::Ended => (0, 1),
        Stepped::Trapped(Trap::Zero, place) => (place, 2),
        Stepped::Trapped(Trap::Range, place) => (place, 3),
    };
    u64::from(place) << 8 | how << 24
}

fn shown(shown: Shown) -> u64 {
    let value = u64::from(shown.value as u32);
    u64::from(shown.place) << 8 | u64::from(shown.running) << 24 | value << 32
}

/// One call on a bay.
pub fn answer(bay: &mut Bay, call: Call) -> Answer {
    match call {
        Call::Offer { domain, sheet } => offer(bay, domain, sheet),
        Call::Start => Answer::of(bay.start(), |()| 0),
        Call::Set { input, value } => Answer::of(bay.set(input, value), |()| 0),
        Call::Step { reading } => Answer::of(bay.step(reading), stepped),
        Call::Stop => Answer::of(bay.stop(), |()| 0),
        Call::Show { variable } => Answer::of(bay.show(variable), shown),
    }
}

impl<'a> Call<'a> {
    /// The first call of a list, and the rest; none if it is cut short or no call.
    pub fn read(list: &'a [u8]) -> Option<(Call<'a>, &'a [u8])> {
        let (record, rest) = list.split_first_chunk::<RECORD_BYTES>()?;
        let &[code, domain, _, _, n0, n1, n2, n3, v0, v1, v2, v3] = record;
        let number = u32::from_le_bytes([n0, n1, n2, n3]);
        let value = i32::from_le_bytes([v0, v1, v2, v3]);
        let call = match code {
            0 => {
                let (sheet, rest) = rest.split_at_checked(usize::try_from(number).ok()?)?;
                return Some((Call::Offer { domain, sheet }, rest));
            }
            1 => Call::Start,
            2 => Call::Set { input: number, value },
            3 => Call::Step { reading: value },
            4 => Call::Stop,
            5 => Call::Show { variable: number },
            _ => return None,
        };
        Some((call, rest))
    }

    /// Writes the call at the end of a list; `unread` are the two bytes that are not looked at.
    pub fn write(&self, unread: [u8; 2], list: &mut Vec<u8>) {
        let (code, domain, number, value, sheet): (u8, u8, u32, i32, &[u8]) = match *self {
            Call::Offer { domain, sheet } => (0, domain, sheet.len() as u32, 0, sheet),
            Call::Start => (1, 0, 0, 0, &[]),
            Call::Set { input, value } => (2, 0, input, value, &[]),
            Call::Step { reading } => (3, 0, 0, reading, &[]),
            Call::Stop => (4, 0, 0, 0, &[]),
            Call::Show { variable } => (5, 0, variable, 0, &[]),
        };
        list.extend([code, domain, unread[0], unread[1]]);
        list.extend(number.to_le_bytes());
        list.extend(value.to_le_bytes());
        list.extend(sheet);
    }
}

/// Plays a list of calls on a bay that holds nothing at first, up to so many answers.
pub fn play(mut list: &[u8], capacity: usize) -> Vec<Answer> {
    let mut bay = Bay::default();
    let mut answers = Vec::new();
    while answers.len() < capacity
        && let Some((call, rest)) = Call::read(list)
    {
        answers.push(answer(&mut bay, call));
        list = rest;
    }
    answers
}

#[cfg(test)]
mod tests {
    use super::*;

    const DAWN: &[u8] = include_bytes!("../../examples/dawn.sheet");

    #[test]
    fn verdicts() {
        assert_eq!(verdict_answer(0, DAWN).number, 5 << 8);
        assert_eq!(verdict_answer(1, DAWN).number, 8);
        assert_eq!(verdict_answer(11, DAWN).number, 255);
        let edited = include_bytes!("../../examples/dawn-at-least.sheet");
        let refused = verdict_answer(0, edited);
        assert_eq!(refused.number, 15 | 2 << 8 | 1 << 32);
        assert!(refused.agrees(refused.number));
        assert!(!refused.agrees(15 | 2 << 8));
        assert!(!refused.agrees(15 | 2 << 8 | 1 << 32 | 1 << 40));
    }

    #[test]
    fn a_played_list() {
        let calls = [
            Call::Show { variable: 0 },
            Call::Offer { domain: 0, sheet: DAWN },
            Call::Offer { domain: 99, sheet: DAWN },
            Call::Start,
            Call::Step { reading: 600 },
            Call::Step { reading: 0 },
            Call::Step { reading: 0 },
            Call::Step { reading: 0 },
            Call::Show { variable: 0 },
            Call::Stop,
        ];
        let mut list = Vec::new();
        for call in calls {
            call.write([7, 9], &mut list);
        }
        let numbers = |list: &[u8], capacity| -> Vec<u64> {
            play(list, capacity).iter().map(|answer| answer.number).collect()
        };
        let ended = 1 << 24;
        let show = 4 << 8 | 600 << 32;
        let all = [21, 5 << 8, 255, 0, 1 << 8, 2 << 8, 4 << 8, ended, show, 23];
        assert_eq!(numbers(&list, 99), all);
        assert_eq!(numbers(&list, 3), all[..3]);
        assert_eq!(numbers(&list[..list.len() - 1], 99), all[..9]);
        assert_eq!(numbers(&list[..12 + 12 + DAWN.len() - 1], 99), all[..1]);
        list[0] = 6;
        assert_eq!(numbers(&list, 99), []);
    }
}
