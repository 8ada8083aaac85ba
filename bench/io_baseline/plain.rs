// Lines of standard input, copied to standard output as bench/io has plan_io copy them.

use std::io::{self, BufRead, BufReader, BufWriter, Write};

fn main() -> io::Result<()> {
    let mut reader = BufReader::with_capacity(65_536, io::stdin().lock());
    let mut writer = BufWriter::with_capacity(65_536, io::stdout().lock());
    let mut line = Vec::new();
    while reader.read_until(b'\n', &mut line)? > 0 {
        writer.write_all(&line)?;
        line.clear();
    }
    writer.flush()
}
