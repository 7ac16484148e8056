// The lists of the pile cofactor, breakup, refined over cofactor, and what they strike.
use crate::sums::Sums;
use crate::table::{MOST_INPUTS, Table};

pub type List = [u32; 12];

// For each input, the pins that it may not have, a bit each.
pub type Strikes = [u16; MOST_INPUTS];

// Inputs 0 to 5 tell apart the 64 rows of a word.
const IN_A_WORD: usize = 6;

// In which rows of a word so many of these inputs are on, and in which each of them is.
const LAYERS: [u64; IN_A_WORD + 1] = layers();
const ON: [u64; IN_A_WORD] = [
    0xaaaa_aaaa_aaaa_aaaa,
    0xcccc_cccc_cccc_cccc,
    0xf0f0_f0f0_f0f0_f0f0,
    0xff00_ff00_ff00_ff00,
    0xffff_0000_ffff_0000,
    0xffff_ffff_0000_0000,
];

const fn layers() -> [u64; IN_A_WORD + 1] {
    let mut layers = [0; IN_A_WORD + 1];
    let mut row = 0;
    while row < 64_u32 {
        layers[row.count_ones() as usize] |= 1 << row;
        row += 1;
    }
    layers
}

// Eight rows as bits.
fn byte_of(rows: [u8; 8]) -> u8 {
    (u64::from_le_bytes(rows).wrapping_mul(0x0102_0408_1020_4080) >> 56) as u8
}

// Sixty-four rows as bits.
fn word_of(rows: &[u8]) -> u64 {
    let (eights, rest) = rows.as_chunks();
    let mut bytes = [0; 8];
    for (byte, eight) in bytes.iter_mut().zip(eights) {
        *byte = byte_of(*eight);
    }
    let last = rest
        .iter()
        .rev()
        .fold(0, |word, row| word << 1 | u64::from(*row));
    u64::from_le_bytes(bytes) | last
}

fn add(answers: &mut [u32], counts: [u32; IN_A_WORD + 1]) {
    for (answer, count) in answers.iter_mut().zip(counts) {
        *answer += count;
    }
}

pub struct Lists {
    inputs: usize,
    pub lists: [List; MOST_INPUTS],
}

impl Lists {
    // Of a table and its sums.
    pub fn of(table: Table, sums: &Sums) -> Lists {
        let mut lists = Lists {
            inputs: table.inputs,
            lists: [[0; 12]; MOST_INPUTS],
        };
        for (w, rows) in table.rows.chunks(64).enumerate() {
            lists.add_word(w, word_of(rows));
        }
        lists.add_shared(sums);
        lists
    }

    // Breakup: at place p how many rows are on that have the input on and p inputs in all.
    fn add_word(&mut self, w: usize, word: u64) {
        let place = w.count_ones() as usize;
        let layers = LAYERS.map(|layer| word & layer);
        let within = self.lists.iter_mut().zip(ON);
        for (list, on) in within {
            let counts = layers.map(|rows| (rows & on).count_ones());
            add(&mut list[place..], counts);
        }
        let counts = layers.map(u64::count_ones);
        for (i, list) in self.lists[IN_A_WORD..].iter_mut().enumerate() {
            if w >> i & 1 == 1 {
                add(&mut list[place..], counts);
            }
        }
    }

    // Cofactor, and cofactor refined.
    fn add_shared(&mut self, sums: &Sums) {
        for i in 0..self.inputs {
            self.lists[i][0] = sums.given(i);
            for k in 0..i {
                let both = sums.shared(i, k);
                self.lists[i][11] += both * (1 + sums.given(k) % 4096);
                self.lists[k][11] += both * (1 + sums.given(i) % 4096);
            }
        }
    }

    // The list of each input.
    pub fn all(&self) -> &[List] {
        &self.lists[..self.inputs]
    }

    // Which pairs of an input of these and of the others have unequal lists.
    pub fn strikes(&self, others: &Lists) -> Strikes {
        let mut strikes = [0; MOST_INPUTS];
        for (struck, list) in strikes.iter_mut().zip(self.all()) {
            for (pin, other) in others.all().iter().enumerate() {
                *struck |= u16::from(list != other) << pin;
            }
        }
        strikes
    }

    // How many pairs of two of these have unequal lists, either order counted.
    pub fn struck_count(&self) -> usize {
        let lists = self.all().iter().enumerate();
        let struck = |(i, list)| {
            self.all()[..i]
                .iter()
                .filter(|&other| other != list)
                .count()
        };
        2 * lists.map(struck).sum::<usize>()
    }
}
