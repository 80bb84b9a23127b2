//! The numbers given (document 01, "Numbers given"; document 02, P7). Number 4 is not used.

#[derive(Clone, Copy, Debug, PartialEq, Eq)]
pub enum Refusal {
    /// A lent length is wrong.
    Length = 1,
    /// A given number is out of its range, or a sample doesn't fit the factor.
    Range = 2,
    /// A main frame's sync is wrong.
    Sync = 3,
    /// Two or more scale words are equally near, and none nearer.
    ScaleWord = 5,
    /// The parity of a programme byte is odd.
    Parity = 6,
    /// The service sync is neither of two.
    ServiceSync = 7,
    /// The header is wrong or short.
    Header = 8,
    /// The totals have as many superframes as they can.
    Full = 9,
}

impl Refusal {
    pub fn number(self) -> u8 {
        self as u8
    }
}
