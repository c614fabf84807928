//! "The program reads lines `+ v s e` or `- v s e` from standard input".

use std::io::{Read, Write};

fn main() -> std::io::Result<()> {
    let mut text = Vec::new();
    std::io::stdin().read_to_end(&mut text)?;
    std::io::stdout().write_all(&plain::run(&text))
}
