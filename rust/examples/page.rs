//! Prints the pages of the bench file that the first argument names, or of the one on standard input.
use std::env;
use std::error::Error;
use std::fs;
use std::io::{self, Read, Write};

fn main() -> Result<(), Box<dyn Error>> {
    let mut file = Vec::new();
    match env::args_os().nth(1) {
        Some(name) => file = fs::read(name)?,
        None => {
            io::stdin().read_to_end(&mut file)?;
        }
    }
    let mut rows = [0; ccs::ENOUGH_FOR_PAGES];
    let length = ccs::page(&file, &mut rows).map_err(|refusal| refusal.to_string())?;
    io::stdout().write_all(&rows[..length])?;
    Ok(())
}
