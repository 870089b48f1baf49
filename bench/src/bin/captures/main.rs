//! Writes captures to time handlers on. Each is the same at every run.

mod frames;
mod market;
mod mixed;
mod profiles;
mod random;

use std::env;
use std::path::Path;
use std::process::ExitCode;

const HELP: &str = "\
usage: captures DIR [PROFILE..]
       captures --list

Writes the profiles, or all of them, as DIR/PROFILE.pcap: Ethernet, little-endian, microseconds.
--list prints their names.
";

fn write(directory: &str, names: &[&str]) -> Result<(), String> {
    if let Some(name) = names
        .iter()
        .find(|name| profiles::ALL.iter().all(|known| known.name != **name))
    {
        return Err(format!("{name}: no such profile"));
    }
    for profile in profiles::ALL {
        if names.is_empty() || names.contains(&profile.name) {
            let path = Path::new(directory)
                .join(profile.name)
                .with_extension("pcap");
            std::fs::write(&path, (profile.make)().into_bytes())
                .map_err(|error| format!("{}: {error}", path.display()))?;
        }
    }
    Ok(())
}

fn main() -> ExitCode {
    let words: Vec<String> = env::args().skip(1).collect();
    let words: Vec<&str> = words.iter().map(String::as_str).collect();
    let outcome = match words[..] {
        ["--help"] => {
            print!("{HELP}");
            Ok(())
        }
        ["--list"] => {
            profiles::ALL
                .iter()
                .for_each(|profile| println!("{}", profile.name));
            Ok(())
        }
        [directory, ref names @ ..] => write(directory, names),
        [] => Err(HELP.to_string()),
    };
    match outcome {
        Ok(()) => ExitCode::SUCCESS,
        Err(error) => {
            eprintln!("{error}");
            ExitCode::FAILURE
        }
    }
}
