// Lines of parts, drops and cards, and the files of them that a shelf is measured with.
use crate::drawing::{Model, Random, Relation};
use std::io::{self, BufWriter, Write};

fn digits(rows: &[u8]) -> String {
    rows.iter().map(|&row| char::from(b'0' + row)).collect()
}

pub fn part_line(number: usize, inputs: usize, rows: &[u8]) -> String {
    format!("(part {number} (pins {inputs}) (rows {}))\n", digits(rows))
}

pub fn drop_line(number: usize) -> String {
    format!("(drop {number})\n")
}

pub fn card_line(inputs: usize, rows: &[u8]) -> String {
    format!("(card (pins {inputs}) (rows {}))\n", digits(rows))
}

fn models(random: &mut Random, inputs: usize) -> [Model; 2] {
    [Model::plain(random, inputs), Model::ring(random, inputs)]
}

// Parts of two models in turn, with falling numbers, so that none is passed over for one that was found before. The cards
// are those of the models and one near to each.
pub fn write_shelf(parts: usize, inputs: usize) -> io::Result<()> {
    let mut random = Random(1);
    let models = models(&mut random, inputs);
    let near = [0, 1].map(|k: usize| models[k].near_miss(&mut random));
    let mut output = BufWriter::new(io::stdout().lock());
    for number in (1..=parts).rev() {
        let relation = Relation::of(number, parts);
        let rows = models[1 - number % 2].part(&mut random, relation);
        output.write_all(part_line(number, inputs, &rows).as_bytes())?;
    }
    for (model, near) in models.iter().zip(&near) {
        output.write_all(card_line(inputs, &model.card).as_bytes())?;
        output.write_all(card_line(inputs, near).as_bytes())?;
    }
    output.flush()
}

fn refused_line(random: &mut Random, model: &Model) -> String {
    let inputs = model.inputs;
    match random.below(6) {
        0 => part_line(0, inputs, &model.card),
        1 => card_line(inputs + 1, &model.card),
        2 => card_line(11, &model.card),
        3 => drop_line(10_000 + random.below(90_000)),
        4 => format!("(drop 0{})\n", random.below(100)),
        _ => card_line(inputs, &model.card).replace('1', "2"),
    }
}

// More numbers than a shelf of 16 has slots, so that some stand, some do not and the shelf is full at times.
fn line(random: &mut Random, model: &Model) -> String {
    let number = 1 + random.below(24);
    match random.below(20) {
        0..8 => {
            let rows = model.part(random, Relation::of(number, 24));
            part_line(number, model.inputs, &rows)
        }
        8..12 => drop_line(number),
        12..16 => card_line(model.inputs, &model.card),
        16..18 => card_line(model.inputs, &model.near_miss(random)),
        _ => refused_line(random, model),
    }
}

pub fn write_conversation(lines: usize, inputs: usize) -> io::Result<()> {
    let mut random = Random(1);
    let models = models(&mut random, inputs);
    let mut output = BufWriter::new(io::stdout().lock());
    for k in 0..lines {
        output.write_all(line(&mut random, &models[k % 2]).as_bytes())?;
    }
    output.flush()
}
