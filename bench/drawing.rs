// Cards and parts that are drawn, the same in each run.
use crate::search::Pins;

pub struct Random(pub u32);

impl Random {
    pub fn below(&mut self, end: usize) -> usize {
        self.0 = self.0.wrapping_mul(1664525).wrapping_add(1013904223);
        (self.0 >> 16) as usize % end
    }

    fn row(&mut self) -> u8 {
        self.below(2) as u8
    }

    pub fn pins(&mut self, inputs: usize) -> Pins {
        let mut pins = std::array::from_fn(|i| i);
        for i in 0..inputs {
            pins.swap(i, i + self.below(inputs - i));
        }
        pins
    }
}

// How a part stands to a card: it agrees with it, or with a table of the card's rows in another order, or is its rows
// in another order.
#[derive(Clone, Copy)]
pub enum Relation {
    Agreeing,
    NearMiss,
    Unrelated,
}

impl Relation {
    pub fn of(number: usize, parts: usize) -> Relation {
        if number > parts / 4 * 3 {
            Relation::Agreeing
        } else if number % 4 < 2 {
            Relation::NearMiss
        } else {
            Relation::Unrelated
        }
    }
}

pub fn carried(rows: &[u8], pins: Pins, inputs: usize) -> Vec<u8> {
    let mut part = rows.to_vec();
    for (r, row) in rows.iter().enumerate() {
        part[(0..inputs).map(|i| (r >> i & 1) << pins[i]).sum::<usize>()] = *row;
    }
    part
}

fn shuffled(random: &mut Random, rows: &[u8]) -> Vec<u8> {
    let mut other = rows.to_vec();
    for r in 0..rows.len() {
        other.swap(r, random.below(rows.len()));
    }
    other
}

// The first row past this one with as many inputs on and another value.
fn unlike(rows: &[u8], row: usize) -> Option<usize> {
    (row..rows.len()).find(|r| r.count_ones() == row.count_ones() && rows[*r] != rows[row])
}

// The next turn of a row: each input has the value that the input before it has in this row.
pub fn turned(row: usize, inputs: usize) -> usize {
    (row << 1 | row >> (inputs - 1)) % (1 << inputs)
}

// A card, and over how many turns its near misses exchange two rows.
pub struct Model {
    pub inputs: usize,
    pub card: Vec<u8>,
    turns: usize,
}

impl Model {
    // Each row is drawn by itself.
    pub fn plain(random: &mut Random, inputs: usize) -> Model {
        Model::drawn(random, inputs, 1)
    }

    // A row is drawn with all its turns, so that all inputs have one list.
    pub fn ring(random: &mut Random, inputs: usize) -> Model {
        Model::drawn(random, inputs, inputs)
    }

    fn drawn(random: &mut Random, inputs: usize, turns: usize) -> Model {
        let mut model = Model {
            inputs,
            card: vec![0; 1 << inputs],
            turns,
        };
        for r in 0..1 << inputs {
            let row = random.row();
            let mut turn = r;
            for _ in 0..turns {
                model.card[turn] = row;
                turn = turned(turn, inputs);
            }
        }
        model
    }

    // The card with two rows exchanged, over all turns.
    pub fn near_miss(&self, random: &mut Random) -> Vec<u8> {
        let mut other = self.card.clone();
        let start = random.below(1 << (self.inputs - 1));
        let rows = (start..self.card.len()).find_map(|a| Some((a, unlike(&self.card, a)?)));
        if let Some((mut a, mut b)) = rows {
            for _ in 0..self.turns {
                other.swap(a, b);
                a = turned(a, self.inputs);
                b = turned(b, self.inputs);
            }
        }
        other
    }

    pub fn part(&self, random: &mut Random, relation: Relation) -> Vec<u8> {
        match relation {
            Relation::Agreeing => carried(&self.card, random.pins(self.inputs), self.inputs),
            Relation::NearMiss => {
                let other = self.near_miss(random);
                carried(&other, random.pins(self.inputs), self.inputs)
            }
            Relation::Unrelated => shuffled(random, &self.card),
        }
    }
}
