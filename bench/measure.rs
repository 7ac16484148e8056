// One kind of call over and over with the tables of a file, as crates/bench_calls does it, and a sum of what came out.
use crate::line::Form;
use crate::lists::Lists;
use crate::search::{Matcher, Pins};
use crate::shelf::{Refusal, Shelf, check_rows};
use crate::sums::Sums;
use crate::table::Table;
use std::error::Error;
use std::io::{self, Read};

struct TableRows {
    inputs: usize,
    rows: Vec<u8>,
}

impl TableRows {
    fn of(inputs: usize, digits: &[u8]) -> Result<TableRows, Refusal> {
        check_rows(inputs, digits)?;
        let rows = digits.iter().map(|digit| digit - b'0').collect();
        Ok(TableRows { inputs, rows })
    }

    fn table(&self) -> Table<'_> {
        Table {
            inputs: self.inputs,
            rows: &self.rows,
        }
    }
}

fn summed(sum: u64, said: u64) -> u64 {
    sum.wrapping_mul(31).wrapping_add(said)
}

fn summed_pins(sum: u64, pins: &[usize]) -> u64 {
    pins.iter().fold(sum, |sum, &pin| summed(sum, pin as u64))
}

// The parts, with their numbers, and the cards of a file of lines.
#[derive(Default)]
pub struct Stock {
    numbers: Vec<u32>,
    parts: Vec<TableRows>,
    cards: Vec<TableRows>,
}

impl Stock {
    // The tables of standard input. Drops are passed over.
    pub fn read() -> Result<Stock, Box<dyn Error>> {
        let mut text = Vec::new();
        io::stdin().read_to_end(&mut text)?;
        let mut stock = Stock::default();
        for line in text.split_inclusive(|&byte| byte == b'\n') {
            stock.add(line).map_err(|_| "a line has no table")?;
        }
        Ok(stock)
    }

    fn add(&mut self, line: &[u8]) -> Result<(), Refusal> {
        match Form::read(line).ok_or(Refusal::NotAForm)? {
            Form::Part {
                number,
                inputs,
                rows,
            } => {
                self.parts.push(TableRows::of(inputs, rows)?);
                self.numbers.push(number);
            }
            Form::Card { inputs, rows } => self.cards.push(TableRows::of(inputs, rows)?),
            Form::Drop { .. } => {}
        }
        Ok(())
    }

    fn sum_of_lists(&self, times: usize) -> u64 {
        let mut sums = Sums::new();
        let mut sum = 0;
        for (t, card) in self.cards.iter().cycle().take(times).enumerate() {
            sums.fill(card.table());
            let lists = Lists::of(card.table(), &sums);
            let answer = lists.lists[t % card.inputs.max(1)][t % 12];
            sum = summed(sum, answer.into());
        }
        sum
    }

    fn sum_of_wirings(
        &self,
        times: usize,
        wiring: fn(&mut Matcher, Table, Table) -> Option<Pins>,
    ) -> u64 {
        let mut matcher = Matcher::new();
        let cards = self.cards.iter().cycle();
        let mut sum = 0;
        for (card, part) in cards.zip(self.parts.iter().cycle()).take(times) {
            sum = match wiring(&mut matcher, card.table(), part.table()) {
                Some(pins) => summed_pins(sum, &pins[..card.inputs]),
                None => summed(sum, 10),
            };
        }
        sum
    }

    fn sum_of_fits(&self, times: usize) -> u64 {
        let mut shelf = Shelf::open(self.parts.len());
        for (number, part) in self.numbers.iter().zip(&self.parts) {
            let _ = shelf.enter(*number, part.inputs, &part.rows);
        }
        let mut sum = 0;
        for card in self.cards.iter().cycle().take(times) {
            sum = match shelf.fit(card.inputs, &card.rows) {
                Ok(fit) => {
                    let sum = summed_pins(sum, fit.pins());
                    summed(summed(sum, fit.number.into()), fit.struck as u64)
                }
                Err(refusal) => summed(sum, refusal as u64),
            };
        }
        sum
    }

    pub fn sum(&self, what: &str, times: usize) -> Result<u64, Box<dyn Error>> {
        Ok(match what {
            "lists" => self.sum_of_lists(times),
            "search" => self.sum_of_wirings(times, Matcher::wiring_by_lists),
            "bare" => self.sum_of_wirings(times, Matcher::first_wiring),
            "fit" => self.sum_of_fits(times),
            _ => return Err("no call has this name".into()),
        })
    }
}
