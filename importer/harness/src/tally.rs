//! Whose answers the port is held to, and how often.

/// Whose answer it is.
#[derive(Clone, Copy, Debug, PartialEq, Eq)]
pub enum By {
    /// The list is refused. By 15 and 16 it left the oracle runs: the original reduces it.
    Question,
    /// The unchanged copy's; the amended one leaves the same.
    Original,
    /// The amended copy's alone: the list left the oracle runs.
    Amended,
}

/// How many lists were compared, by whose answer it was.
#[derive(Default)]
pub struct Tally([u64; 3]);

impl Tally {
    pub fn add(&mut self, by: By) {
        self.0[by as usize] += 1;
    }

    pub fn of(&self, by: By) -> u64 {
        self.0[by as usize]
    }

    /// Prints how many lists left the oracle runs. Some did, but most did not.
    pub fn print(&self, what: &str) {
        let (amended, original) = (self.of(By::Amended), self.of(By::Original));
        println!("{what}: {amended} of {} lists left the oracle runs", amended + original);
        assert!(0 < amended && amended < original, "{what}: {amended} and {original}");
    }
}
