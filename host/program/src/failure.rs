//! Why a command ends without its result, in words, and the exit code that says so.

use nuqtelya::Refusal;
use std::fmt;
use std::io;
use std::path::Path;

#[derive(Debug)]
pub enum Failure {
    /// The command line asks for nothing that can be done.
    Usage(String),
    /// A file is missing, has the wrong length or content, or cannot be written.
    File(String),
    /// There is less memory than the work needs.
    Memory(String),
    /// The library refused, and at what.
    Refused(String, Refusal),
}

pub type Done<T> = Result<T, Failure>;

impl Failure {
    /// 0 is left for success and 101 for a panic, which would be a fault of the program.
    pub fn exit_code(&self) -> u8 {
        match self {
            Failure::Refused(..) => 1,
            Failure::Usage(_) => 2,
            Failure::File(_) => 3,
            Failure::Memory(_) => 4,
        }
    }

    pub fn file(path: &Path, what: impl fmt::Display) -> Failure {
        Failure::File(format!("{}: {what}", path.display()))
    }

    /// A failure of the system, at a file.
    pub fn io(path: &Path, doing: &str, error: &io::Error) -> Failure {
        Failure::file(path, format!("cannot be {doing}: {error}"))
    }

    /// For `map_err`: a refusal of the library, at what.
    pub fn refused(what: impl Into<String>) -> impl FnOnce(Refusal) -> Failure {
        let what = what.into();
        move |refusal| Failure::Refused(what, refusal)
    }
}

impl fmt::Display for Failure {
    fn fmt(&self, f: &mut fmt::Formatter) -> fmt::Result {
        match self {
            Failure::Usage(text) => write!(f, "{text} (nuqtelya --help)"),
            Failure::File(text) | Failure::Memory(text) => write!(f, "{text}"),
            // The refusal's own text begins with its number.
            Failure::Refused(what, refusal) => write!(f, "{what}: refused by {refusal}{}", advice(refusal.number())),
        }
    }
}

/// What can be done about some of the refusals.
fn advice(number: u32) -> &'static str {
    match number {
        14 => " (--empty-cells split fills them)",
        16 => " (its samples are all but equal: fewer codewords, or samples that differ more)",
        17 => " (are these the codes of this codebook?)",
        19 => " (--event-slots gives more)",
        27 => " (nothing is rounded; who has its vector can encode that)",
        _ => "",
    }
}
