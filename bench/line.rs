// The lines that a shelf is talked to in, and their answers.
use crate::shelf::{Proposal, Refusal, Shelf};

const LONGEST_LINE: usize = 1100;

pub enum Form<'a> {
    Part {
        number: u32,
        inputs: usize,
        rows: &'a [u8],
    },
    Drop {
        number: u32,
    },
    Card {
        inputs: usize,
        rows: &'a [u8],
    },
}

// A number of one to five digits without a leading zero, and what follows it.
fn number(text: &[u8]) -> Option<(u32, &[u8])> {
    let end = text.iter().position(|byte| !byte.is_ascii_digit())?;
    let (digits, rest) = text.split_at(end);
    if !(1..=5).contains(&end) || digits[0] == b'0' && end > 1 {
        return None;
    }
    let value = digits
        .iter()
        .fold(0, |n, digit| n * 10 + u32::from(digit - b'0'));
    Some((value, rest))
}

// What stands between ` (pins 3) (rows ` and the end of the line. All digits are looked at, which is faster than to stop
// at the first that is none.
fn table(text: &[u8]) -> Option<(usize, &[u8])> {
    let (inputs, rest) = number(text.strip_prefix(b" (pins ")?)?;
    let rows = rest.strip_prefix(b") (rows ")?.strip_suffix(b"))\n")?;
    let bits = rows.iter().fold(0, |bits, digit| bits | digit ^ b'0');
    (!rows.is_empty() && bits <= 1).then_some((inputs as usize, rows))
}

impl Form<'_> {
    pub fn read(line: &[u8]) -> Option<Form<'_>> {
        if line.len() > LONGEST_LINE {
            return None;
        }
        if let Some(rest) = line.strip_prefix(b"(part ") {
            let (number, rest) = number(rest)?;
            let (inputs, rows) = table(rest)?;
            return Some(Form::Part {
                number,
                inputs,
                rows,
            });
        }
        if let Some(rest) = line.strip_prefix(b"(drop ") {
            let (number, rest) = number(rest)?;
            return (rest == b")\n").then_some(Form::Drop { number });
        }
        let (inputs, rows) = table(line.strip_prefix(b"(card")?)?;
        Some(Form::Card { inputs, rows })
    }
}

// The rows that digits spell, in room for them.
fn rows_of<'a>(digits: &[u8], room: &'a mut [u8; LONGEST_LINE]) -> &'a [u8] {
    let rows = &mut room[..digits.len()];
    for (row, digit) in rows.iter_mut().zip(digits) {
        *row = digit - b'0';
    }
    rows
}

enum Reply {
    Done,
    Fit(Proposal),
}

// A conversation with a shelf.
pub struct Talk {
    pub shelf: Shelf,
    rows: [u8; LONGEST_LINE],
    answer: Vec<u8>,
}

impl Talk {
    pub fn with(shelf: Shelf) -> Talk {
        Talk {
            shelf,
            rows: [0; LONGEST_LINE],
            answer: Vec::new(),
        }
    }

    fn obey(&mut self, line: &[u8]) -> Result<Reply, Refusal> {
        match Form::read(line).ok_or(Refusal::NotAForm)? {
            Form::Part {
                number,
                inputs,
                rows,
            } => {
                let rows = rows_of(rows, &mut self.rows);
                self.shelf.enter(number, inputs, rows).map(|()| Reply::Done)
            }
            Form::Drop { number } => self.shelf.drop_part(number).map(|()| Reply::Done),
            Form::Card { inputs, rows } => {
                let rows = rows_of(rows, &mut self.rows);
                self.shelf.fit(inputs, rows).map(Reply::Fit)
            }
        }
    }

    fn write(&mut self, text: &[u8]) {
        self.answer.extend_from_slice(text);
    }

    fn write_number(&mut self, number: usize) {
        if number > 9 {
            self.write_number(number / 10);
        }
        self.answer.push(b'0' + (number % 10) as u8);
    }

    // Does what a line asks of the shelf, and says the answer.
    pub fn answer_line(&mut self, line: &[u8]) -> &[u8] {
        let reply = self.obey(line);
        self.answer.clear();
        match reply {
            Ok(Reply::Done) => self.write(b"(ok)\n"),
            Ok(Reply::Fit(proposal)) => {
                self.write(b"(fit ");
                self.write_number(proposal.number as usize);
                self.write(b" (to");
                for pin in proposal.pins() {
                    self.write(b" ");
                    self.write_number(*pin);
                }
                self.write(b") (struck ");
                self.write_number(proposal.struck);
                self.write(b"))\n");
            }
            Err(refusal) => {
                self.write(b"(no ");
                self.write_number(refusal as usize);
                self.write(b")\n");
            }
        }
        &self.answer
    }
}
