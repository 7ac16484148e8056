// A shelf of parts, and which of them can stand in for a card.
use crate::search::{Matcher, Pins};
use crate::table::{MOST_INPUTS, MOST_ROWS, Table};

#[derive(Clone, Copy)]
pub enum Refusal {
    NotAForm = 1,
    NotAPartNumber = 2,
    TooManyInputs = 3,
    WrongRowCount = 4,
    NumberStands = 7,
    ShelfFull = 8,
    NumberDoesNotStand = 9,
    NoPartAgrees = 10,
}

// What a slot in use says of its part.
#[derive(Clone, Copy)]
struct Label {
    number: u32,
    inputs: usize,
}

pub struct Proposal {
    pub number: u32,
    pub inputs: usize,
    pub pins: Pins,
    pub struck: usize,
}

impl Proposal {
    pub fn pins(&self) -> &[usize] {
        &self.pins[..self.inputs]
    }
}

fn check_number(number: u32) -> Result<(), Refusal> {
    match number {
        1..=9999 => Ok(()),
        _ => Err(Refusal::NotAPartNumber),
    }
}

pub fn check_rows(inputs: usize, rows: &[u8]) -> Result<(), Refusal> {
    if inputs > MOST_INPUTS {
        return Err(Refusal::TooManyInputs);
    }
    if rows.len() != 1 << inputs {
        return Err(Refusal::WrongRowCount);
    }
    Ok(())
}

pub struct Shelf {
    slots: Vec<Option<Label>>,
    // The rows of the parts, 1,024 for each slot.
    memory: Vec<u8>,
    matcher: Matcher,
}

impl Shelf {
    pub fn open(slots: usize) -> Shelf {
        Shelf {
            slots: vec![None; slots],
            memory: vec![0; slots * MOST_ROWS],
            matcher: Matcher::new(),
        }
    }

    fn slot_of(&self, number: u32) -> Option<usize> {
        let stands = |slot: &Option<Label>| slot.is_some_and(|label| label.number == number);
        self.slots.iter().position(stands)
    }

    pub fn enter(&mut self, number: u32, inputs: usize, rows: &[u8]) -> Result<(), Refusal> {
        check_number(number)?;
        check_rows(inputs, rows)?;
        if self.slot_of(number).is_some() {
            return Err(Refusal::NumberStands);
        }
        let free = self.slots.iter().position(Option::is_none);
        let slot = free.ok_or(Refusal::ShelfFull)?;
        self.memory[slot * MOST_ROWS..][..rows.len()].copy_from_slice(rows);
        self.slots[slot] = Some(Label { number, inputs });
        Ok(())
    }

    pub fn drop_part(&mut self, number: u32) -> Result<(), Refusal> {
        check_number(number)?;
        let slot = self.slot_of(number).ok_or(Refusal::NumberDoesNotStand)?;
        self.slots[slot] = None;
        Ok(())
    }

    // The lowest part that agrees with the card, and its first wiring.
    pub fn fit(&mut self, inputs: usize, rows: &[u8]) -> Result<Proposal, Refusal> {
        check_rows(inputs, rows)?;
        let card = Table { inputs, rows };
        let weight = card.weight();
        self.matcher.card.fill(card);
        let mut best: Option<(u32, Pins)> = None;
        for (slot, stretch) in self.slots.iter().zip(self.memory.chunks_exact(MOST_ROWS)) {
            let Some(Label { number, inputs }) = *slot else {
                continue;
            };
            let is_beaten = best.is_some_and(|(lowest, _)| lowest <= number);
            if is_beaten || inputs != card.inputs {
                continue;
            }
            let rows = &stretch[..rows.len()];
            let part = Table { inputs, rows };
            if part.weight() == weight
                && let Some(pins) = self.matcher.wiring_to(part)
            {
                best = Some((number, pins));
            }
        }
        let (number, pins) = best.ok_or(Refusal::NoPartAgrees)?;
        Ok(Proposal {
            number,
            inputs,
            pins,
            struck: self.matcher.struck_count(card),
        })
    }
}
