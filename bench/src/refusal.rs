//! Refusals: the rule that fails, and where.

/// The rules, by their numbers.
#[derive(Clone, Copy, PartialEq, Eq, Debug)]
#[repr(u8)]
pub enum Rule {
    SheetSize = 1,
    HeadByte = 2,
    PartExtent = 3,
    PartSize = 4,
    InputRecord = 5,
    RowByte = 6,
    NoWidth = 7,
    TableSize = 8,
    EntryFlag = 9,
    CellUnreadable = 10,
    StartUncovered = 11,
    ZeroWarning = 12,
    RangeWarning = 13,
    EntryAbsent = 14,
    NotCovered = 15,
    NoSetting = 16,
    SettingOutside = 17,
    ReadingOutside = 18,
    NoVariable = 19,
    NothingHeld = 21,
    Running = 22,
    NotRunning = 23,
}

#[derive(Clone, Copy, PartialEq, Eq, Debug)]
pub struct Refusal {
    pub rule: Rule,
    pub place: u16,
    pub way: u8,
    pub variable: u8,
    /// Of rule 15, a bit for each uncovered variable: any of them may be named. Else 0.
    pub uncovered: u16,
}

impl Refusal {
    pub fn new(rule: Rule) -> Refusal {
        Refusal { rule, place: 0, way: 0, variable: 0, uncovered: 0 }
    }

    pub fn at(rule: Rule, place: usize) -> Refusal {
        Refusal { place: place as u16, ..Refusal::new(rule) }
    }

    pub fn way(self, way: usize) -> Refusal {
        Refusal { way: way as u8, ..self }
    }

    pub fn variable(self, variable: usize) -> Refusal {
        Refusal { variable: variable as u8, ..self }
    }

    /// The same refusal of rule 15, naming the lowest of the uncovered variables.
    pub fn uncovered(self, uncovered: u16) -> Refusal {
        Refusal { variable: uncovered.trailing_zeros() as u8, uncovered, ..self }
    }

    /// The four numbers of the documents.
    pub fn numbers(&self) -> [u16; 4] {
        [self.rule as u16, self.place, u16::from(self.way), u16::from(self.variable)]
    }
}
