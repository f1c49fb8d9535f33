//! Lists the bench file that the first argument names, or the one on standard input.
use std::env;
use std::error::Error;
use std::fs;
use std::io::{self, Read, Write};

fn main() -> Result<(), Box<dyn Error>> {
    let mut file = Vec::new();
    match env::args_os().nth(1) {
        Some(name) => file = fs::read(name)?,
        None => {
            io::stdin().read_to_end(&mut file)?;
        }
    }
    let mut text = [0; ccs::ENOUGH_FOR_LISTING];
    let length = ccs::list(&file, &mut text)?;
    io::stdout().write_all(&text[..length])?;
    Ok(())
}
