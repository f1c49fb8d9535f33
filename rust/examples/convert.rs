//! Converts a bench file to the version that the first argument names, 1 or 2: the file that the second argument names, or the one on standard input.
use std::env;
use std::error::Error;
use std::fs;
use std::io::{self, Read, Write};

fn main() -> Result<(), Box<dyn Error>> {
    let mut arguments = env::args_os().skip(1);
    let wanted = arguments
        .next()
        .and_then(|word| word.to_str()?.parse().ok());
    let wanted = wanted.ok_or("the first argument is the wanted version, 1 or 2")?;
    let mut file = Vec::new();
    match arguments.next() {
        Some(name) => file = fs::read(name)?,
        None => {
            io::stdin().read_to_end(&mut file)?;
        }
    }
    // a converted file is at most one byte longer
    let mut converted = vec![0; file.len() + 1];
    let length =
        ccs::convert(&file, wanted, &mut converted).map_err(|refusal| refusal.to_string())?;
    io::stdout().write_all(&converted[..length])?;
    Ok(())
}
