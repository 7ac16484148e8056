// Pairs of a card and a part of many classes of tables. Some leave a search little to go by.
use crate::drawing::{Model, Random, Relation, carried, turned};
use crate::files::{card_line, drop_line, part_line};
use crate::graphs::Graph;
use std::error::Error;
use std::io::{self, BufWriter, Write};

// The classes, and of each the kinds of its pairs: how the part stands to the card. It agrees with it, or it is a near miss.
// One more class, `mixed`, has the kinds `agreeing`, `near` and `unrelated`: its pairs are for calls.
const CLASSES: [(&str, &[&str]); 17] = [
    ("drawn", &["agreeing", "two-rows", "four-rows"]),
    ("rings", &["agreeing", "two-rows", "turns", "four-rows"]),
    ("symmetric", &["agreeing", "four-rows"]),
    ("twins", &["agreeing", "two-rows", "four-rows"]),
    ("hidden-bit", &["agreeing", "two-rows", "four-rows"]),
    ("maiorana", &["agreeing", "two-rows", "four-rows"]),
    ("five-pairs", &["agreeing", "two-rows", "four-rows"]),
    ("all-but-pairs", &["agreeing", "two-rows", "four-rows"]),
    ("two-fives", &["agreeing", "two-rows", "four-rows"]),
    ("cographs", &["agreeing", "two-rows", "four-rows"]),
    ("petersen", &["agreeing", "two-rows", "four-rows"]),
    ("paley", &["agreeing", "two-rows", "four-rows"]),
    ("pentagons", &["agreeing", "two-rows", "four-rows"]),
    ("quadratic", &["agreeing", "two-rows", "four-rows"]),
    ("cubic", &["agreeing", "two-rows", "four-rows", "another"]),
    ("edges", &["agreeing", "two-rows", "four-rows", "another"]),
    ("gaps", &["agreeing", "two-rows", "four-rows", "another"]),
];

fn by_row(inputs: usize, value: impl FnMut(usize) -> usize) -> Vec<u8> {
    (0..1 << inputs).map(value).map(|row| row as u8).collect()
}

fn drawn(random: &mut Random, rows: usize) -> Vec<usize> {
    (0..rows).map(|_| random.below(2)).collect()
}

fn count(row: usize) -> usize {
    row.count_ones() as usize
}

// A table of the class.
fn table(class: &str, random: &mut Random, inputs: usize) -> Option<Vec<u8>> {
    let rows = 1 << inputs;
    Some(match class {
        // Each row is drawn by itself.
        "drawn" => by_row(inputs, |_| random.below(2)),
        // A row is drawn for all its turns, the least of them.
        "rings" => {
            let drawn = drawn(random, rows);
            by_row(inputs, |row| {
                let next = |turn: &usize| Some(turned(*turn, inputs));
                let turns = std::iter::successors(Some(row), next);
                turns.take(inputs).min().map_or(0, |least| drawn[least])
            })
        }
        // Drawn by how many inputs are on.
        "symmetric" => {
            let drawn = drawn(random, inputs + 1);
            by_row(inputs, |row| drawn[count(row)])
        }
        // Drawn by how many are on of inputs 0 and 1, of 2 and 3, and so on: where it is one, it may as well be the first.
        "twins" => {
            let drawn = drawn(random, rows);
            by_row(inputs, |row| {
                let (even, odd) = (row & 0x155, row >> 1 & 0x155);
                drawn[even | odd | (even & odd) << 1]
            })
        }
        // The input whose number is how many are on.
        "hidden-bit" => by_row(inputs, |row| row << 1 >> count(row) & 1),
        // In how many places both halves are on, and what is drawn for how many of the second are.
        "maiorana" => {
            let drawn = drawn(random, inputs + 1);
            let half = inputs / 2;
            by_row(inputs, |row| {
                let (first, second) = (row & ((1 << half) - 1), row >> half);
                (count(first & second) % 2) ^ drawn[count(second)]
            })
        }
        // On where two inputs are on that have an edge in a graph with three edges at each.
        "edges" => {
            let graph = Graph::cubic(random, inputs);
            by_row(inputs, |row| {
                usize::from(count(row) == 2) * graph.edges_on(row)
            })
        }
        // The same with on and off exchanged in the inputs.
        "gaps" => {
            let mut rows = table("edges", random, inputs)?;
            rows.reverse();
            rows
        }
        // How many edges of a graph have both ends on is odd.
        _ => {
            let graph = Graph::named(class, random, inputs)?;
            by_row(inputs, |row| graph.edges_on(row) % 2)
        }
    })
}

// Two rows with as many inputs on are exchanged, and so are their turns, if there are to be more than one.
fn exchanged(random: &mut Random, rows: &[u8], inputs: usize, turns: usize) -> Option<Vec<u8>> {
    let (mut a, mut b) = (random.below(rows.len()), random.below(rows.len()));
    if count(a) != count(b) {
        return None;
    }
    let mut other = rows.to_vec();
    for _ in 0..turns {
        other.swap(a, b);
        a = turned(a, inputs);
        b = turned(b, inputs);
    }
    Some(other)
}

// Of four rows that differ in two inputs only, the first and the last are alike and the other two are not as they are: all
// four are turned over.
fn turned_over(random: &mut Random, rows: &[u8], inputs: usize) -> Option<Vec<u8>> {
    let (i, k) = (1 << random.below(inputs), 1 << random.below(inputs));
    let a = random.below(rows.len()) & !(i | k);
    let square = [a, a | i, a | k, a | i | k];
    let values = square.map(|row| rows[row]);
    if i == k || !matches!(values, [0, 1, 1, 0] | [1, 0, 0, 1]) {
        return None;
    }
    let mut other = rows.to_vec();
    for row in square {
        other[row] ^= 1;
    }
    Some(other)
}

// What the part is to agree with: the card's table, or one that is near to it.
fn model(
    class: &str,
    kind: &str,
    random: &mut Random,
    rows: &[u8],
    inputs: usize,
) -> Option<Vec<u8>> {
    let mut drawn = || match kind {
        "two-rows" => exchanged(random, rows, inputs, 1),
        "turns" => exchanged(random, rows, inputs, inputs),
        "four-rows" => turned_over(random, rows, inputs),
        "another" => table(class, random, inputs),
        _ => Some(rows.to_vec()),
    };
    let fits = |other: &Vec<u8>| kind == "agreeing" || other != rows;
    (0..100_000).find_map(|_| drawn().filter(fits))
}

// A drawn card or, every second time, a ring, and a part that weighs as much.
fn mixed_pair(
    kind: &str,
    random: &mut Random,
    inputs: usize,
    k: usize,
) -> Option<(Vec<u8>, Vec<u8>)> {
    let relation = match kind {
        "agreeing" => Relation::Agreeing,
        "near" => Relation::NearMiss,
        "unrelated" => Relation::Unrelated,
        _ => return None,
    };
    let model = match k % 2 {
        0 => Model::plain(random, inputs),
        _ => Model::ring(random, inputs),
    };
    let part = model.part(random, relation);
    Some((model.card, part))
}

// A card and a part. Every second card has its inputs in a drawn order.
fn pair(
    class: &str,
    kind: &str,
    random: &mut Random,
    inputs: usize,
    k: usize,
) -> Option<(Vec<u8>, Vec<u8>)> {
    if class == "mixed" {
        return mixed_pair(kind, random, inputs, k);
    }
    let (card, other) = (0..100).find_map(|_| {
        let card = table(class, random, inputs)?;
        let other = model(class, kind, random, &card, inputs)?;
        Some((card, other))
    })?;
    let part = carried(&other, random.pins(inputs), inputs);
    let pins = random.pins(inputs);
    match k % 2 {
        0 => Some((card, part)),
        _ => Some((carried(&card, pins, inputs), part)),
    }
}

// For each pair a line that enters the part, one that fits the card and one that drops the part.
pub fn write_pairs(
    class: &str,
    kind: &str,
    count: usize,
    inputs: usize,
) -> Result<(), Box<dyn Error>> {
    let mut random = Random(1);
    let mut output = BufWriter::new(io::stdout().lock());
    for k in 0..count {
        let pair = pair(class, kind, &mut random, inputs, k);
        let (card, part) = pair.ok_or("there are no such pairs")?;
        output.write_all(part_line(k + 1, inputs, &part).as_bytes())?;
        output.write_all(card_line(inputs, &card).as_bytes())?;
        output.write_all(drop_line(k + 1).as_bytes())?;
    }
    Ok(output.flush()?)
}

pub fn write_classes() -> io::Result<()> {
    let mut output = BufWriter::new(io::stdout().lock());
    for (class, kinds) in CLASSES {
        for kind in kinds {
            writeln!(output, "{class} {kind}")?;
        }
    }
    output.flush()
}
