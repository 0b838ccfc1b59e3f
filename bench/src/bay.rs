//! The bay and its six calls.

use crate::check::verdict;
use crate::domain::Domain;
use crate::number::Trap;
use crate::refusal::{Refusal, Rule};
use crate::sheet::{Input, Kind, MOST_INPUTS, MOST_VARIABLES, Row, Sheet};

/// How a step came out.
#[derive(Clone, Copy, PartialEq, Eq, Debug)]
pub enum Stepped {
    At(u16),
    Ended,
    Trapped(Trap, u16),
}

/// What show answers.
#[derive(Clone, Copy, PartialEq, Eq, Debug)]
pub struct Shown {
    pub running: bool,
    pub place: u16,
    pub value: i32,
}

/// A routine and the state that it is in.
#[derive(Clone, Debug)]
pub struct Held {
    pub variables: usize,
    pub inputs: Vec<Input>,
    pub rows: Vec<Row>,
    pub settings: [i32; MOST_INPUTS],
    pub values: [i32; MOST_VARIABLES],
    pub place: usize,
    pub running: bool,
}

#[derive(Clone, Debug, Default)]
pub struct Bay {
    held: Option<Held>,
}

impl Held {
    fn new(sheet: &Sheet) -> Held {
        let inputs: Vec<Input> = sheet.inputs.iter().map(Input::load).collect();
        let mut settings = [0; MOST_INPUTS];
        for (setting, input) in settings.iter_mut().zip(&inputs) {
            *setting = input.lo;
        }
        Held {
            variables: sheet.variables,
            rows: sheet.rows.iter().map(Row::load).collect(),
            inputs,
            settings,
            values: [0; MOST_VARIABLES],
            place: 0,
            running: false,
        }
    }

    /// What a take of the input gives.
    fn taken(&self, input: u8, reading: i32) -> Result<i32, Refusal> {
        let input = usize::from(input);
        match self.inputs[input].kind {
            Kind::Setting => Ok(self.settings[input]),
            Kind::Reading if self.inputs[input].admits(reading) => Ok(reading),
            Kind::Reading => Err(Refusal::new(Rule::ReadingOutside)),
        }
    }

    fn go(&mut self, place: u8) -> Stepped {
        self.place = usize::from(place);
        Stepped::At(u16::from(place))
    }

    fn assign(&mut self, x: u8, value: i32, place: u8) -> Stepped {
        self.values[usize::from(x)] = value;
        self.go(place)
    }

    fn step(&mut self, reading: i32) -> Result<Stepped, Refusal> {
        let value = |variable: u8| self.values[usize::from(variable)];
        Ok(match self.rows[self.place] {
            Row::End => {
                self.running = false;
                Stepped::Ended
            }
            Row::Put { x, n, t } => self.assign(x, n, t),
            Row::Take { x, input, t } => self.assign(x, self.taken(input, reading)?, t),
            Row::Work { x, op, a, b, t } => match op.apply(value(a), value(b)) {
                Ok(result) => self.assign(x, result, t),
                Err(trap) => {
                    self.running = false;
                    Stepped::Trapped(trap, self.place as u16)
                }
            },
            Row::Fork { relation, a, b, t, u } => {
                let to = if relation.holds(value(a), value(b)) { t } else { u };
                self.go(to)
            }
        })
    }
}

impl Bay {
    /// What the bay holds, for a look.
    pub fn held(&self) -> Option<&Held> {
        self.held.as_ref()
    }

    fn any(&mut self) -> Result<&mut Held, Refusal> {
        self.held.as_mut().ok_or(Refusal::new(Rule::NothingHeld))
    }

    fn running(&mut self) -> Result<&mut Held, Refusal> {
        let held = self.any()?;
        if held.running { Ok(held) } else { Err(Refusal::new(Rule::NotRunning)) }
    }

    /// Checks a sheet and holds its routine; answers the number of places.
    pub fn offer<D: Domain>(&mut self, bytes: &[u8]) -> Result<u16, Refusal> {
        if self.held.as_ref().is_some_and(|held| held.running) {
            return Err(Refusal::new(Rule::Running));
        }
        let sheet = verdict::<D>(bytes)?;
        self.held = Some(Held::new(&sheet));
        Ok(sheet.rows.len() as u16)
    }

    pub fn start(&mut self) -> Result<(), Refusal> {
        let held = self.any()?;
        if held.running {
            return Err(Refusal::new(Rule::Running));
        }
        held.place = 0;
        held.values = [0; MOST_VARIABLES];
        held.running = true;
        Ok(())
    }

    pub fn set(&mut self, input: u32, value: i32) -> Result<(), Refusal> {
        let held = self.any()?;
        let input = usize::try_from(input).unwrap_or(usize::MAX);
        match held.inputs.get(input) {
            Some(set) if set.kind == Kind::Setting => {
                if !set.admits(value) {
                    return Err(Refusal::new(Rule::SettingOutside));
                }
                held.settings[input] = value;
                Ok(())
            }
            _ => Err(Refusal::new(Rule::NoSetting)),
        }
    }

    pub fn step(&mut self, reading: i32) -> Result<Stepped, Refusal> {
        self.running()?.step(reading)
    }

    pub fn stop(&mut self) -> Result<(), Refusal> {
        self.running()?.running = false;
        Ok(())
    }

    pub fn show(&mut self, variable: u32) -> Result<Shown, Refusal> {
        let held = self.any()?;
        match usize::try_from(variable) {
            Ok(variable) if variable < held.variables => {
                Ok(Shown { running: held.running, place: held.place as u16, value: held.values[variable] })
            }
            _ => Err(Refusal::new(Rule::NoVariable)),
        }
    }
}

#[cfg(test)]
mod tests {
    use super::*;
    use crate::span::Span;

    const DAWN: &[u8] = include_bytes!("../../examples/dawn.sheet");

    fn refused<T>(answer: Result<T, Refusal>) -> u16 {
        answer.err().map_or(0, |refusal| refusal.numbers()[0])
    }

    #[test]
    fn nothing_is_held_at_first() {
        let mut bay = Bay::default();
        assert_eq!(refused(bay.start()), 21);
        assert_eq!(refused(bay.set(0, 0)), 21);
        assert_eq!(refused(bay.step(0)), 21);
        assert_eq!(refused(bay.stop()), 21);
        assert_eq!(refused(bay.show(0)), 21);
        assert_eq!(refused(bay.offer::<Span>(&DAWN[..27])), 1);
        assert_eq!(refused(bay.show(0)), 21);
    }

    #[test]
    fn a_dawn_morning() {
        let mut bay = Bay::default();
        assert_eq!(bay.offer::<Span>(DAWN), Ok(5));
        assert_eq!(refused(bay.step(0)), 23);
        assert_eq!(refused(bay.stop()), 23);
        assert_eq!(bay.start(), Ok(()));
        assert_eq!(refused(bay.start()), 22);
        assert_eq!(refused(bay.offer::<Span>(&[])), 22);
        assert_eq!(refused(bay.set(0, 3)), 16);
        assert_eq!(refused(bay.set(2, 3)), 16);
        assert_eq!(refused(bay.step(5001)), 18);
        assert_eq!(bay.step(600), Ok(Stepped::At(1)));
        assert_eq!(bay.step(7), Ok(Stepped::At(2)));
        assert_eq!(bay.step(-1), Ok(Stepped::At(3)));
        assert_eq!(bay.step(-1), Ok(Stepped::At(0)));
        assert_eq!(bay.show(2), Ok(Shown { running: true, place: 0, value: 85 }));
        assert_eq!(refused(bay.show(4)), 19);
        assert_eq!(bay.step(0), Ok(Stepped::At(1)));
        assert_eq!(bay.step(0), Ok(Stepped::At(2)));
        assert_eq!(bay.step(0), Ok(Stepped::At(4)));
        assert_eq!(bay.step(0), Ok(Stepped::Ended));
        assert_eq!(bay.show(2), Ok(Shown { running: false, place: 4, value: 85 }));
        assert_eq!(refused(bay.step(0)), 23);
        assert_eq!(bay.start(), Ok(()));
        assert_eq!(bay.show(2), Ok(Shown { running: true, place: 0, value: 0 }));
        assert_eq!(bay.stop(), Ok(()));
    }

    #[test]
    fn settings() {
        let mut bytes = DAWN.to_vec();
        bytes[28] = 1;
        bytes[29] = 7;
        let mut bay = Bay::default();
        assert_eq!(bay.offer::<Span>(&bytes), Ok(5));
        assert_eq!(refused(bay.set(0, 6)), 17);
        assert_eq!(refused(bay.set(0, 5001)), 17);
        assert_eq!(bay.start(), Ok(()));
        assert_eq!(bay.step(6), Ok(Stepped::At(1)));
        assert_eq!(bay.show(0), Ok(Shown { running: true, place: 1, value: 7 }));
        assert_eq!(bay.set(0, 5000), Ok(()));
        assert_eq!(bay.stop(), Ok(()));
        assert_eq!(bay.start(), Ok(()));
        assert_eq!(bay.step(6), Ok(Stepped::At(1)));
        assert_eq!(bay.show(0), Ok(Shown { running: true, place: 1, value: 5000 }));
    }
}
