// Graphs whose vertices are the inputs of a table.
use crate::drawing::Random;

pub struct Graph {
    edges: Vec<(usize, usize)>,
}

impl Graph {
    // `is_edge` is asked of each two vertices, the lower one first.
    fn of(inputs: usize, mut is_edge: impl FnMut(usize, usize) -> bool) -> Graph {
        let pairs = (0..inputs).flat_map(|k| (0..k).map(move |i| (i, k)));
        Graph {
            edges: pairs.filter(|&(i, k)| is_edge(i, k)).collect(),
        }
    }

    // Complete graphs of one to four vertices, or all edges but theirs.
    fn cograph(random: &mut Random, inputs: usize) -> Graph {
        let mut parts: Vec<usize> = Vec::new();
        while parts.len() < inputs {
            let next = parts.len();
            parts.extend(vec![next; 1 + random.below(4)]);
        }
        let is_within = random.below(2) == 1;
        Graph::of(inputs, |i, k| (parts[i] == parts[k]) == is_within)
    }

    // Three edges at each vertex, where the vertices are even in number: ends are drawn until no two edges are the same.
    pub fn cubic(random: &mut Random, inputs: usize) -> Graph {
        loop {
            let mut ends: Vec<usize> = (0..3 * inputs).map(|end| end / 3).collect();
            for e in 0..ends.len() {
                ends.swap(e, e + random.below(3 * inputs - e));
            }
            let joined = |i, k| {
                let is_between = |ends: &&[usize]| **ends == [i, k] || **ends == [k, i];
                ends.chunks(2).any(|ends| is_between(&ends))
            };
            let graph = Graph::of(inputs, joined);
            if graph.edges.len() == 3 * inputs / 2 {
                return graph;
            }
        }
    }

    pub fn named(name: &str, random: &mut Random, inputs: usize) -> Option<Graph> {
        // Of five things, which two each vertex has.
        const TWO_OF_FIVE: [usize; 10] = [3, 5, 9, 17, 6, 10, 18, 12, 20, 24];
        Some(match name {
            "five-pairs" => Graph::of(inputs, |i, k| i / 2 == k / 2),
            "all-but-pairs" => Graph::of(inputs, |i, k| i / 2 != k / 2),
            "two-fives" => Graph::of(inputs, |i, k| i / 5 == k / 5),
            "cographs" => Graph::cograph(random, inputs),
            "petersen" => Graph::of(inputs, |i, k| TWO_OF_FIVE[i] & TWO_OF_FIVE[k] == 0),
            // Nine vertices in rows of three, joined where they share a row or a column.
            "paley" => Graph::of(inputs, |i, k| k < 9 && (i / 3 == k / 3) != (i % 3 == k % 3)),
            "pentagons" => Graph::of(inputs, |i, k| i / 5 == k / 5 && matches!(k - i, 1 | 4)),
            "quadratic" => Graph::of(inputs, |_, _| random.below(2) == 1),
            "cubic" => Graph::cubic(random, inputs),
            _ => return None,
        })
    }

    // How many edges have both ends on in a row.
    pub fn edges_on(&self, row: usize) -> usize {
        let is_on = |(i, k): &&(usize, usize)| row >> i & row >> k & 1 == 1;
        self.edges.iter().filter(is_on).count()
    }
}
