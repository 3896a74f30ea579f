#![doc = include_str!("../README.md")]
use std::fmt;
use std::os::raw::c_int;
use thorin_sys as sys;

pub use sys::{thorin_range as Range, thorin_unit as Unit};

/// What a call refused: its number and what it means.
#[derive(Clone, Copy, Debug, PartialEq, Eq)]
pub struct Status(pub c_int);

impl fmt::Display for Status {
    fn fmt(&self, f: &mut fmt::Formatter<'_>) -> fmt::Result {
        let mut text = [0u8; 64];
        // `text` has as many bytes as is said.
        let size = unsafe { sys::thorin_status_text(self.0, text.as_mut_ptr(), text.len()) };
        f.write_str(&String::from_utf8_lossy(&text[..size.min(text.len())]))
    }
}

impl std::error::Error for Status {}

/// Why inputs weren't packed.
#[derive(Clone, Debug, PartialEq, Eq)]
pub enum PackError {
    /// An input was refused: its place among the inputs, and the fault's number and text.
    Input(usize, u32, String),
    /// The package can't be finished: the fault's number and text.
    Unfinished(u32, String),
    /// Memory ran out.
    Memory,
}

impl fmt::Display for PackError {
    fn fmt(&self, f: &mut fmt::Formatter<'_>) -> fmt::Result {
        match self {
            PackError::Input(input, fault, text) => write!(f, "input {input}: {text} ({fault})"),
            PackError::Unfinished(fault, text) => write!(f, "{text} ({fault})"),
            PackError::Memory => f.write_str("Out of memory"),
        }
    }
}

impl std::error::Error for PackError {}

/// The name of a unit.
#[derive(Clone, Copy, Debug, PartialEq, Eq, Hash)]
pub enum Name {
    /// A compilation unit, by the identifier that its skeleton unit has.
    Compilation(u64),
    /// A type unit, by its signature.
    TypeUnit(u64),
}

impl Name {
    fn kind_and_id(self) -> (u8, u64) {
        match self {
            Name::Compilation(id) => (sys::THORIN_COMPILATION, id),
            Name::TypeUnit(id) => (sys::THORIN_TYPE_UNIT, id),
        }
    }
}

fn name_of(kind: u8, id: u64) -> Name {
    match kind {
        sys::THORIN_TYPE_UNIT => Name::TypeUnit(id),
        _ => Name::Compilation(id),
    }
}

type LookUp = unsafe extern "C" fn(*const u8, usize, *mut sys::thorin_lookup, usize) -> i32;

/// A package that is open: its bytes, and where its sections lie among them.
#[derive(Clone, Copy)]
pub struct Package<'a> {
    bytes: &'a [u8],
    places: sys::thorin_package,
}

fn answer<T>(status: i32, value: T) -> Result<T, Status> {
    if status == sys::THORIN_DONE {
        Ok(value)
    } else {
        Err(Status(status))
    }
}

// Each `unsafe` block below passes pointers from slices and references, with the lengths of the slices, and the calls
// write to nothing else; a slice's pointer is never null. What is lent lies inside the package.
impl<'a> Package<'a> {
    /// Opens a package, if its indexes can be read.
    pub fn new(bytes: &'a [u8]) -> Result<Package<'a>, Status> {
        let mut places = sys::thorin_package::default();
        let status = unsafe { sys::thorin_open(bytes.as_ptr(), bytes.len(), &mut places) };
        answer(status, Package { bytes, places })
    }

    fn list(&self, names: &mut [sys::thorin_name]) -> Result<usize, Status> {
        let mut count = 0;
        let status = unsafe {
            sys::thorin_list_in(
                &self.places, self.bytes.as_ptr(), self.bytes.len(), names.as_mut_ptr(), names.len(), &mut count)
        };
        answer(status, count as usize)
    }

    /// How many units the indexes name.
    pub fn unit_count(&self) -> Result<usize, Status> {
        self.list(&mut [])
    }

    /// The units that the indexes name.
    pub fn names(&self) -> Result<Vec<Name>, Status> {
        let mut names = vec![sys::thorin_name::default(); self.unit_count()?];
        self.list(&mut names)?;
        Ok(names.iter().map(|named| name_of(named.kind, named.id)).collect())
    }

    /// The unit of a name.
    pub fn find(&self, name: Name) -> Result<Unit, Status> {
        let (kind, id) = name.kind_and_id();
        let mut unit = Unit::default();
        let status = unsafe {
            sys::thorin_find_in(&self.places, self.bytes.as_ptr(), self.bytes.len(), kind, id, &mut unit)
        };
        answer(status, unit)
    }

    /// The same by the indexes alone: no version and no sizes of offsets and addresses.
    pub fn find_row(&self, name: Name) -> Result<Unit, Status> {
        let (kind, id) = name.kind_and_id();
        let mut unit = Unit::default();
        let status = unsafe {
            sys::thorin_find_row_in(&self.places, self.bytes.as_ptr(), self.bytes.len(), kind, id, &mut unit)
        };
        answer(status, unit)
    }

    /// The unit of each of these names.
    pub fn find_each(&self, names: &[Name]) -> Result<Vec<Result<Unit, Status>>, Status> {
        self.look_up(sys::thorin_find_each, names)
    }

    /// The same by the indexes alone: no version and no sizes of offsets and addresses.
    pub fn find_rows(&self, names: &[Name]) -> Result<Vec<Result<Unit, Status>>, Status> {
        self.look_up(sys::thorin_find_rows, names)
    }

    fn look_up(&self, call: LookUp, names: &[Name]) -> Result<Vec<Result<Unit, Status>>, Status> {
        let asked = |name: &Name| {
            let (kind, id) = name.kind_and_id();
            sys::thorin_lookup { kind, id, ..Default::default() }
        };
        let mut lookups: Vec<_> = names.iter().map(asked).collect();
        let status = unsafe { call(self.bytes.as_ptr(), self.bytes.len(), lookups.as_mut_ptr(), lookups.len()) };
        answer(status, lookups.iter().map(|l| answer(l.status, l.unit)).collect())
    }

    /// A unit's bytes in a section, in the order of the fields of `Unit`.
    pub fn content(&self, name: Name, section: u8) -> Result<&'a [u8], Status> {
        let (kind, id) = name.kind_and_id();
        self.lent(|found| unsafe {
            sys::thorin_content_in(
                &self.places, self.bytes.as_ptr(), self.bytes.len(), kind, id, section, found)
        })
    }

    /// A unit's string of a number.
    pub fn string(&self, name: Name, index: u64) -> Result<&'a [u8], Status> {
        let (kind, id) = name.kind_and_id();
        self.lent(|found| unsafe {
            sys::thorin_string_in(
                &self.places, self.bytes.as_ptr(), self.bytes.len(), kind, id, index, found)
        })
    }

    fn lent(&self, call: impl FnOnce(*mut sys::thorin_bytes) -> i32) -> Result<&'a [u8], Status> {
        let mut found = sys::thorin_bytes { at: self.bytes.as_ptr(), size: 0 };
        let status = call(&mut found);
        answer(status, unsafe { std::slice::from_raw_parts(found.at, found.size) })
    }
}

/// A package that was made.
#[derive(Clone, Debug, PartialEq, Eq)]
pub struct Packed {
    /// Its bytes.
    pub bytes: Vec<u8>,
    /// How many type units were passed over whose bytes differ from those of the unit that is kept.
    pub differing: u64,
    /// Whether the package may be an input again.
    pub packs_again: bool,
}

const NO_REPORT: sys::thorin_report =
    sys::thorin_report { size: 0, input: 0, differing: 0, packs_again: 0, fault: 0, text_size: 0, text: [0; 256] };

fn refusal(status: i32, report: &sys::thorin_report) -> PackError {
    let text = String::from_utf8_lossy(&report.text[..report.text_size as usize]).into_owned();
    match status {
        sys::THORIN_REFUSED => PackError::Input(report.input as usize, report.fault, text),
        sys::THORIN_UNFINISHED => PackError::Unfinished(report.fault, text),
        _ => PackError::Memory,
    }
}

fn lend(inputs: &[impl AsRef<[u8]>]) -> Vec<sys::thorin_bytes> {
    let lent = |input: &[u8]| sys::thorin_bytes { at: input.as_ptr(), size: input.len() };
    inputs.iter().map(|input| lent(input.as_ref())).collect()
}

/// Packs objects and packages, in order.
pub fn pack(inputs: &[impl AsRef<[u8]>]) -> Result<Packed, PackError> {
    let lent = lend(inputs);
    let mut bytes = vec![0; 4096 + lent.iter().map(|input| input.size).sum::<usize>()];
    let mut report = NO_REPORT;
    let mut status = sys::THORIN_TOO_SMALL;
    while status == sys::THORIN_TOO_SMALL {
        bytes.resize(bytes.len().max(report.size as usize), 0);
        status = unsafe {
            sys::thorin_pack(lent.as_ptr(), lent.len(), bytes.as_mut_ptr(), bytes.len(), &mut report)
        };
    }
    if status != sys::THORIN_DONE {
        return Err(refusal(status, &report));
    }
    bytes.truncate(report.size as usize);
    Ok(Packed { bytes, differing: report.differing, packs_again: report.packs_again == 1 })
}

/// The signatures of the type units that packing passes over and that differ from those kept.
pub fn differing_types(inputs: &[impl AsRef<[u8]>]) -> Result<Vec<u64>, PackError> {
    let lent = lend(inputs);
    let mut types = Vec::new();
    let mut report = NO_REPORT;
    loop {
        types.resize(report.differing as usize, 0);
        let status = unsafe {
            sys::thorin_differing_types(lent.as_ptr(), lent.len(), types.as_mut_ptr(), types.len(), &mut report)
        };
        if status != sys::THORIN_DONE {
            return Err(refusal(status, &report));
        }
        if report.differing as usize <= types.len() {
            return Ok(types);
        }
    }
}

/// A file with plain sections in place of those that zlib or zstd compressed: an object, a package or an executable. None where all
/// sections are plain.
pub fn decompress(file: &[u8]) -> Result<Option<Vec<u8>>, Status> {
    let (mut plain, mut size) = (Vec::new(), 0);
    loop {
        plain.resize(size as usize, 0);
        let status = unsafe {
            sys::thorin_decompress(file.as_ptr(), file.len(), plain.as_mut_ptr(), plain.len(), &mut size)
        };
        match status {
            sys::THORIN_TOO_SMALL => {}
            sys::THORIN_NOT_COMPRESSED => return Ok(None),
            _ => return answer(status, Some(plain)),
        }
    }
}

/// A unit that an executable names.
#[derive(Clone, Debug, PartialEq, Eq)]
pub struct Skeleton {
    /// Its name.
    pub name: Name,
    /// The path of its object, as the executable has it.
    pub path: Vec<u8>,
}

/// The units that an executable names, in order.
#[derive(Clone, Debug, PartialEq, Eq)]
pub struct Skeletons {
    /// The units; up to the fault, where there is one.
    pub units: Vec<Skeleton>,
    /// The number and the text of the fault that ended the list.
    pub fault: Option<(u32, String)>,
}

/// The units that an executable names, and the paths of their objects: read these files, and pack them.
pub fn skeletons(executable: &[u8]) -> Result<Skeletons, Status> {
    let (mut names, mut paths, mut count, mut report) = (Vec::new(), Vec::new(), 0, NO_REPORT);
    let status = loop {
        names.resize(count as usize, sys::thorin_skeleton::default());
        paths.resize(report.size as usize, 0u8);
        let status = unsafe {
            sys::thorin_skeletons(
                executable.as_ptr(), executable.len(), names.as_mut_ptr(), names.len(), paths.as_mut_ptr(), paths.len(),
                &mut count, &mut report)
        };
        if status != sys::THORIN_DONE && status != sys::THORIN_REFUSED {
            return Err(Status(status));
        }
        if count as usize <= names.len() && report.size as usize <= paths.len() {
            break status;
        }
    };
    let mut rest = &paths[..];
    let units = names.iter().map(|named| {
        let (path, next) = rest.split_at(named.path_size as usize);
        rest = &next[1..];
        Skeleton { name: name_of(named.kind, named.id), path: path.to_vec() }
    });
    let units = units.collect();
    let text = || String::from_utf8_lossy(&report.text[..report.text_size as usize]).into_owned();
    Ok(Skeletons { units, fault: (status == sys::THORIN_REFUSED).then(|| (report.fault, text())) })
}
