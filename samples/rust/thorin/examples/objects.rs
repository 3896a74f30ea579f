//! objects EXECUTABLE: prints the units that an executable names, and the paths of their objects.
use std::{env, error::Error, fs, process::ExitCode};
use thorin::{Name, decompress, skeletons};

fn main() -> ExitCode {
    let words: Vec<String> = env::args().collect();
    let [_, file] = words.as_slice() else {
        eprintln!("usage: objects EXECUTABLE");
        return ExitCode::from(2);
    };
    match print_objects(file) {
        Ok(()) => ExitCode::SUCCESS,
        Err(e) => {
            eprintln!("error: {e}");
            ExitCode::from(1)
        }
    }
}

fn print_objects(file: &str) -> Result<(), Box<dyn Error>> {
    let bytes = fs::read(file)?;
    let plain = decompress(&bytes).unwrap_or(None).unwrap_or(bytes);
    let found = skeletons(&plain)?;
    for unit in found.units {
        let path = String::from_utf8_lossy(&unit.path);
        match unit.name {
            Name::Compilation(id) => println!("cu {id:#018x} {path}"),
            Name::TypeUnit(id) => println!("tu {id:#018x} {path}"),
        }
    }
    match found.fault {
        None => Ok(()),
        Some((number, text)) => Err(format!("{text} ({number})").into()),
    }
}
