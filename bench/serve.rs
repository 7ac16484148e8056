// A conversation on standard input and output, with a shelf of 16 slots.
use crate::line::Talk;
use crate::shelf::Shelf;
use std::io::{self, BufRead, BufReader, BufWriter, Write};

const CHUNK: usize = 1 << 16;

pub fn serve() -> io::Result<()> {
    let mut talk = Talk::with(Shelf::open(16));
    let mut input = BufReader::with_capacity(CHUNK, io::stdin().lock());
    let mut output = BufWriter::with_capacity(CHUNK, io::stdout().lock());
    let mut line = Vec::new();
    loop {
        // What has been answered is out before more is read.
        output.flush()?;
        let chunk = input.fill_buf()?;
        if chunk.is_empty() {
            break;
        }
        let size = chunk.len();
        let last = chunk.iter().rposition(|&byte| byte == b'\n');
        let (mut lines, begun) = chunk.split_at(last.map_or(0, |last| last + 1));
        while !lines.is_empty() {
            lines.read_until(b'\n', &mut line)?;
            output.write_all(talk.answer_line(&line))?;
            line.clear();
        }
        line.extend_from_slice(begun);
        input.consume(size);
    }
    if !line.is_empty() {
        output.write_all(talk.answer_line(&line))?;
    }
    output.flush()
}
