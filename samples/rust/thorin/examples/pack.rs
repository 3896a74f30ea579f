//! pack OUT INPUT..: packs objects and packages into one package.
use std::{env, fs, process::ExitCode};
use thorin::PackError;

fn main() -> ExitCode {
    let words: Vec<String> = env::args().collect();
    let [_, out, inputs @ ..] = words.as_slice() else {
        eprintln!("usage: pack OUT INPUT..");
        return ExitCode::from(2);
    };
    match packed(out, inputs) {
        Ok(()) => ExitCode::SUCCESS,
        Err(text) => {
            eprintln!("error: {text}");
            ExitCode::from(1)
        }
    }
}

fn packed(out: &str, names: &[String]) -> Result<(), String> {
    let read = |name: &String| fs::read(name).map_err(|e| format!("{name}: {e}"));
    let inputs = names.iter().map(read).collect::<Result<Vec<_>, _>>()?;
    let package = thorin::pack(&inputs).map_err(|e| match e {
        PackError::Input(input, fault, text) => format!("{}: {text} ({fault})", names[input]),
        other => other.to_string(),
    })?;
    fs::write(out, &package.bytes).map_err(|e| format!("{out}: {e}"))?;
    println!("{} bytes{}", package.bytes.len(), if package.packs_again { ", may be packed again" } else { "" });
    if package.differing > 0 {
        for signature in thorin::differing_types(&inputs).map_err(|e| e.to_string())? {
            eprintln!("warning: type unit {signature:#018x} differs");
        }
    }
    Ok(())
}
