//! lookup PACKAGE [IDENTIFIER..]: prints what a symbolizer takes of compilation units, or of all units.
use std::io::{self, Write};
use std::{env, error::Error, fs, process::ExitCode};
use thorin::{Name, Package, Range, Status, Unit};

fn main() -> ExitCode {
    let words: Vec<String> = env::args().collect();
    let [_, file, identifiers @ ..] = words.as_slice() else {
        eprintln!("usage: lookup PACKAGE [IDENTIFIER..]");
        return ExitCode::from(2);
    };
    match look_up(file, identifiers) {
        Ok(()) => ExitCode::SUCCESS,
        Err(e) => {
            eprintln!("error: {e}");
            ExitCode::from(1)
        }
    }
}

fn look_up(file: &str, identifiers: &[String]) -> Result<(), Box<dyn Error>> {
    let bytes = fs::read(file)?;
    let package = Package::new(&bytes)?;
    let names = if identifiers.is_empty() {
        package.names()?
    } else {
        let named = |word: &String| u64::from_str_radix(word.trim_start_matches("0x"), 16).map(Name::Compilation);
        identifiers.iter().map(named).collect::<Result<_, _>>()?
    };
    let mut out = io::stdout().lock();
    for name in names {
        print_unit(&mut out, &package, name, package.find(name))?;
    }
    Ok(())
}

fn print_unit(out: &mut impl Write, package: &Package<'_>, name: Name, found: Result<Unit, Status>) -> io::Result<()> {
    match name {
        Name::Compilation(id) => write!(out, "cu {id:#018x}: ")?,
        Name::TypeUnit(id) => write!(out, "tu {id:#018x}: ")?,
    }
    let unit = match found {
        Ok(unit) => unit,
        Err(status) => return writeln!(out, "{status}"),
    };
    writeln!(
        out,
        "row {}, {} slots, version {}, offsets of {} bytes, addresses of {}",
        unit.row, unit.slots, unit.version, unit.offset_size, unit.address_size
    )?;
    let ranges: [(&str, Range); 10] = [
        ("info", unit.info),
        ("types", unit.types),
        ("abbreviations", unit.abbreviations),
        ("line", unit.line),
        ("loc", unit.loc),
        ("loclists", unit.loclists),
        ("rnglists", unit.rnglists),
        ("str_offsets", unit.str_offsets),
        ("macinfo", unit.macinfo),
        ("macro", unit.macros),
    ];
    for (section, range) in ranges.iter().filter(|(_, range)| range.size > 0) {
        writeln!(out, "  {section} {:#x} {:#x}", range.offset, range.size)?;
    }
    for i in 0.. {
        let Ok(string) = package.string(name, i) else { break };
        out.write_all(b"  string ")?;
        out.write_all(string)?;
        out.write_all(b"\n")?;
    }
    Ok(())
}
