// The first wiring, in dictionary order, under which a card and a part agree.
use crate::lists::{Lists, Strikes};
use crate::sums::Sums;
use crate::table::{MOST_INPUTS, MOST_ROWS, Table};
use std::iter;

pub type Pins = [usize; MOST_INPUTS];

// Some pins, a bit each.
type PinSet = u16;

fn pins_of(mut set: PinSet) -> impl Iterator<Item = usize> {
    iter::from_fn(move || {
        let pin = set.trailing_zeros();
        set &= set.checked_sub(1)?;
        Some(pin as usize)
    })
}

// For each input the pins that share as much with the others. There is no wiring where an input has no such pin, or a pin no
// such input.
fn alike_in_shares(card: &Sums, part: &Sums) -> Option<[PinSet; MOST_INPUTS]> {
    let mut open = [0; MOST_INPUTS];
    let mut all: PinSet = 0;
    let pins = &part.shares[..part.inputs];
    for (set, share) in open.iter_mut().zip(&card.shares[..card.inputs]) {
        for (pin, other) in pins.iter().enumerate() {
            *set |= PinSet::from(share == other) << pin;
        }
        if *set == 0 {
            return None;
        }
        all |= *set;
    }
    (all.count_ones() as usize == pins.len()).then_some(open)
}

// Whether a table stays the same when a pin and a lower one change places.
fn are_exchangeable(part: &Sums, pin: usize, lower: usize) -> bool {
    let marks = &part.marks[..1 << part.inputs];
    marks.chunks_exact(2 << pin).all(|marks| {
        let (off, on) = marks.split_at(1 << pin);
        let mut stretches = off
            .chunks_exact(2 << lower)
            .zip(on.chunks_exact(2 << lower));
        stretches.all(|(off, on)| off[1 << lower..] == on[..1 << lower])
    })
}

struct Search<'a> {
    card: &'a Sums,
    part: &'a Sums,
    // Which pins each input may have.
    open: [PinSet; MOST_INPUTS],
    pins: Pins,
    // The part row that each card row is carried to, as far as the pins are given.
    carried: &'a mut [u16; MOST_ROWS],
    // For each pin, the lower ones for which it is known whether the two are exchangeable, and those with which it is.
    asked: [PinSet; MOST_INPUTS],
    exchangeable: [PinSet; MOST_INPUTS],
}

impl Search<'_> {
    // Whether each card row that this pin decides may be carried where it is carried to. It is not inlined, so that all that
    // the loop needs stays in registers.
    #[inline(never)]
    fn settle(&mut self, input: usize, pin: usize) -> bool {
        let half = 1 << input;
        let (known, decided) = self.carried[..2 * half].split_at_mut(half);
        let marks = &self.card.marks[half..2 * half];
        for ((from, to), mark) in known.iter().zip(decided).zip(marks) {
            *to = from + (1 << pin);
            if self.part.marks[usize::from(*to) % MOST_ROWS] != *mark {
                return false;
            }
        }
        true
    }

    // Whether a pin can give nothing that one of these lower pins has not given.
    fn repeats(&mut self, pin: usize, tried: PinSet) -> bool {
        for lower in pins_of(tried & !self.asked[pin]) {
            let exchangeable = are_exchangeable(self.part, pin, lower);
            self.asked[pin] |= 1 << lower;
            self.exchangeable[pin] |= PinSet::from(exchangeable) << lower;
        }
        self.exchangeable[pin] & tried != 0
    }

    // Gives this input and the later ones their pins, the first in dictionary order. The last one has one pin left and can
    // have it: where the rows without it are the same and the sums above them too, so are the sums above the others, and
    // these tell their rows.
    fn extend(&mut self, input: usize, free: PinSet) -> bool {
        if free.count_ones() < 2 {
            for (pin, last) in self.pins[input..].iter_mut().zip(pins_of(free)) {
                *pin = last;
            }
            return true;
        }
        // The pins that the rows leave open, but that lead to no wiring.
        let mut tried = 0;
        for pin in pins_of(self.open[input] & free) {
            if self.repeats(pin, tried) || !self.settle(input, pin) {
                continue;
            }
            self.pins[input] = pin;
            if self.extend(input + 1, free & !(1 << pin)) {
                return true;
            }
            tried |= 1 << pin;
        }
        false
    }
}

// Room for the search of one wiring after another.
pub struct Matcher {
    pub card: Sums,
    part: Sums,
    carried: [u16; MOST_ROWS],
}

impl Matcher {
    pub fn new() -> Matcher {
        Matcher {
            card: Sums::new(),
            part: Sums::new(),
            carried: [0; MOST_ROWS],
        }
    }

    // The wiring of the card and the part whose sums stand.
    fn search(&mut self, strikes: &Strikes) -> Option<Pins> {
        if self.card.marks[0] != self.part.marks[0] {
            return None;
        }
        let mut open = alike_in_shares(&self.card, &self.part)?;
        for (set, struck) in open.iter_mut().zip(strikes) {
            *set &= !struck;
        }
        let free = (1 << self.card.inputs) - 1;
        let mut search = Search {
            card: &self.card,
            part: &self.part,
            open,
            pins: [0; MOST_INPUTS],
            carried: &mut self.carried,
            asked: [0; MOST_INPUTS],
            exchangeable: [0; MOST_INPUTS],
        };
        search.extend(0, free).then_some(search.pins)
    }

    // The wiring of the card whose sums stand and a part that weighs as much and has as many inputs.
    pub fn wiring_to(&mut self, part: Table) -> Option<Pins> {
        self.part.fill(part);
        self.search(&Strikes::default())
    }

    pub fn first_wiring(&mut self, card: Table, part: Table) -> Option<Pins> {
        if card.inputs != part.inputs || card.weight() != part.weight() {
            return None;
        }
        self.card.fill(card);
        self.wiring_to(part)
    }

    // The same, but with the lists of both asked first, and what they tell apart struck. Exchangeable pins have one list, so
    // that they are struck for the same inputs.
    pub fn wiring_by_lists(&mut self, card: Table, part: Table) -> Option<Pins> {
        if card.inputs != part.inputs {
            return None;
        }
        self.card.fill(card);
        self.part.fill(part);
        let lists = Lists::of(card, &self.card);
        let strikes = lists.strikes(&Lists::of(part, &self.part));
        self.search(&strikes)
    }

    // How many pairs of an input and a pin of an agreeing part have unequal lists. Its pins have the lists of the card's
    // inputs in another order, so that those of the card are enough.
    pub fn struck_count(&self, card: Table) -> usize {
        Lists::of(card, &self.card).struck_count()
    }
}
