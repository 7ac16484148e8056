// A truth table over lent rows of 0 and 1.

pub const MOST_INPUTS: usize = 10;
pub const MOST_ROWS: usize = 1 << MOST_INPUTS;

#[derive(Clone, Copy)]
pub struct Table<'a> {
    pub inputs: usize,
    pub rows: &'a [u8],
}

impl Table<'_> {
    // How many rows are on. So many at a time are few enough to be summed in a byte.
    pub fn weight(&self) -> u32 {
        let weight = |rows: &[u8]| u32::from(rows.iter().sum::<u8>());
        self.rows.chunks(128).map(weight).sum()
    }
}
