// The sections of a message, by number and by name.

/// The sections of a message, by number.
#[derive(Clone, Copy, Debug, PartialEq, Eq)]
pub enum Section {
    Indicator = 0,
    Pds = 1,
    Gds = 2,
    Bms = 3,
    Bds = 4,
    End = 5,
}

impl Section {
    /// Its name in full, as `Bit Map Section`.
    pub fn name(self) -> &'static str {
        match self {
            Section::Indicator => "Indicator Section",
            Section::Pds => "Product Definition Section",
            Section::Gds => "Grid Description Section",
            Section::Bms => "Bit Map Section",
            Section::Bds => "Binary Data Section",
            Section::End => "End Section",
        }
    }
}
