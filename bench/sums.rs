// The sums above the rows of a table, and what the inputs share.
use crate::table::{MOST_INPUTS, MOST_ROWS, Table};
use std::ops::AddAssign;

// Adds to each sum the one that has the next input on too: the next input is on in every other stretch of so many sums.
fn add_upper<N: AddAssign + Copy>(sums: &mut [N], stretch: usize) {
    for both in sums.chunks_exact_mut(2 * stretch) {
        let (lower, upper) = both.split_at_mut(stretch);
        for (sum, other) in lower.iter_mut().zip(upper) {
            *sum += *other;
        }
    }
}

// The first three passes, over eight rows at once.
fn sum_up_eight(rows: [u8; 8]) -> [u8; 8] {
    let mut sums = u64::from_le_bytes(rows);
    sums += sums >> 8 & 0x00ff_00ff_00ff_00ff;
    sums += sums >> 16 & 0x0000_ffff_0000_ffff;
    sums += sums >> 32;
    sums.to_le_bytes()
}

// What a search compares. It is kept and filled anew for each table, so that it is cleared only once.
pub struct Sums {
    pub inputs: usize,
    // For each row, twice the sum of the rows above it, which are those with all inputs on that are on in it, and one
    // more where the row itself is on.
    pub marks: [u16; MOST_ROWS],
    // For each input, the sum of s * (s + g) over the others: s rows are on that have both on, and g that have the other.
    pub shares: [u32; MOST_INPUTS],
    // The sums as bytes, as long as they fit.
    bytes: [u8; MOST_ROWS],
}

impl Sums {
    pub fn new() -> Sums {
        Sums {
            inputs: 0,
            marks: [0; MOST_ROWS],
            shares: [0; MOST_INPUTS],
            bytes: [0; MOST_ROWS],
        }
    }

    // How many rows are on that have this input on.
    pub fn given(&self, input: usize) -> u32 {
        u32::from(self.marks[1 << input] >> 1)
    }

    // How many rows are on that have both inputs on.
    pub fn shared(&self, input: usize, other: usize) -> u32 {
        u32::from(self.marks[1 << input | 1 << other] >> 1)
    }

    // Seven passes over bytes, in which a sum is at most 128, and three over words.
    pub fn fill_marks(&mut self, rows: &[u8]) {
        let bytes = &mut self.bytes[..rows.len().max(8)];
        bytes[..rows.len()].copy_from_slice(rows);
        bytes[rows.len()..].fill(0);
        let (eights, _) = bytes.as_chunks_mut();
        for eight in eights {
            *eight = sum_up_eight(*eight);
        }
        for stretch in [8, 16, 32, 64] {
            add_upper(bytes, stretch);
        }
        let marks = &mut self.marks[..rows.len()];
        for (mark, sum) in marks.iter_mut().zip(bytes) {
            *mark = u16::from(*sum);
        }
        for stretch in [128, 256, 512] {
            add_upper(marks, stretch);
        }
        for (mark, row) in marks.iter_mut().zip(rows) {
            *mark = 2 * *mark + u16::from(*row);
        }
    }

    pub fn fill_shares(&mut self) {
        self.shares = [0; MOST_INPUTS];
        for i in 0..self.inputs {
            for k in 0..i {
                let both = self.shared(i, k);
                self.shares[i] += both * (both + self.given(k));
                self.shares[k] += both * (both + self.given(i));
            }
        }
    }

    pub fn fill(&mut self, table: Table) {
        self.inputs = table.inputs;
        self.fill_marks(table.rows);
        self.fill_shares();
    }
}
