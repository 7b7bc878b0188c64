//! The bench sheet's program: a list on standard input, the answer out.

use std::io::{Read, Write};

fn main() -> std::io::Result<()> {
    let mut input = Vec::new();
    // One byte more than its bound is enough to know.
    let most = second::program::LONGEST_INPUT as u64 + 1;
    std::io::stdin().take(most).read_to_end(&mut input)?;
    // open: the paper names no exit status; it is 0 for a refusal too.
    std::io::stdout().write_all(second::program::answer(&input).as_bytes())
}
