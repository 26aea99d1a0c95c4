//! Inputs of values, and outputs that appear whole or not at all.

use crate::failure::{Done, Failure};
use std::fs::{self, File};
use std::io::{self, BufReader, BufWriter, ErrorKind, Read, Seek, SeekFrom, Write};
use std::os::unix::fs::{FileExt, MetadataExt};
use std::path::{Path, PathBuf};

/// Bytes that are held beside the buffer that values are read into.
const PIECE: usize = 1 << 16;

/// A file of little-endian values, read in order.
pub struct Input {
    path: PathBuf,
    file: BufReader<File>,
    len: u64,
}

impl Input {
    pub fn open(path: &Path) -> Done<Input> {
        let metadata = fs::metadata(path).map_err(|error| Failure::io(path, "opened", &error))?;
        // A length is needed beforehand, and a pipe has none. Merely to open one could wait for ever.
        if !metadata.is_file() {
            return Err(Failure::file(path, "is not a plain file"));
        }
        let file = File::open(path).map_err(|error| Failure::io(path, "opened", &error))?;
        // Of the file that was opened, should there be another by now.
        let len = file.metadata().map_err(|error| Failure::io(path, "read", &error))?.len();
        Ok(Input { path: path.into(), file: BufReader::with_capacity(PIECE, file), len })
    }

    pub fn path(&self) -> &Path {
        &self.path
    }

    /// The length in bytes.
    pub fn len(&self) -> u64 {
        self.len
    }

    /// How many pieces of `size` bytes the file holds, the last of which may be cut: at least one.
    pub fn parts(&self, size: u64) -> Done<u64> {
        match self.len {
            0 => Err(Failure::file(&self.path, "is empty")),
            len => Ok(len.div_ceil(size)),
        }
    }

    /// How many pieces of `size` bytes the file holds: a whole number and at least one. `what` names a piece.
    pub fn pieces(&self, size: u64, what: &str) -> Done<u64> {
        let parts = self.parts(size)?;
        if !self.len.is_multiple_of(size) {
            let whole = self.len / size;
            let text = format!(
                "has {} bytes: {whole} times {what} of {size} bytes, and {} bytes more",
                self.len,
                self.len % size
            );
            return Err(Failure::file(&self.path, text));
        }
        Ok(parts)
    }

    /// Tests the length of a file that holds one thing.
    pub fn exactly(&self, size: u64, what: &str) -> Done<()> {
        if self.len == size {
            return Ok(());
        }
        Err(Failure::file(&self.path, format!("has {} bytes, but {what} has {size}", self.len)))
    }

    pub fn bytes(&mut self, into: &mut [u8]) -> Done<()> {
        self.file.read_exact(into).map_err(|error| self.unread(&error))
    }

    /// Goes on reading at this place.
    pub fn go_to(&mut self, place: u64) -> Done<()> {
        self.file.seek(SeekFrom::Start(place)).map(drop).map_err(|error| self.unread(&error))
    }

    /// Bytes at any place, beside those that are read in order.
    pub fn bytes_at(&self, place: u64, into: &mut [u8]) -> Done<()> {
        self.file.get_ref().read_exact_at(into, place).map_err(|error| self.unread(&error))
    }

    fn unread(&self, error: &io::Error) -> Failure {
        match error.kind() {
            ErrorKind::UnexpectedEof => Failure::file(&self.path, "ends too early"),
            _ => Failure::io(&self.path, "read", error),
        }
    }

    pub fn f32s(&mut self, into: &mut [f32]) -> Done<()> {
        for value in into {
            let mut bytes = [0; 4];
            self.bytes(&mut bytes)?;
            *value = f32::from_le_bytes(bytes);
        }
        Ok(())
    }

    /// Straight into the buffer, so that a large file is in memory once.
    pub fn f64s(&mut self, into: &mut [f64]) -> Done<()> {
        for value in into {
            let mut bytes = [0; 8];
            self.bytes(&mut bytes)?;
            *value = f64::from_le_bytes(bytes);
        }
        Ok(())
    }
}

/// A file that gets its name when it is complete and on the disk: until then it has another name beside it, and a
/// failure takes that away.
pub struct Output {
    target: PathBuf,
    part: PathBuf,
    file: BufWriter<File>,
    named: bool,
}

impl Output {
    pub fn create(target: &Path) -> Done<Output> {
        let target = match fs::metadata(target) {
            Ok(metadata) if !metadata.is_file() => return Err(Failure::file(target, "is there and not a plain file")),
            // Through a link to the file itself, so that the link stays.
            Ok(_) => fs::canonicalize(target).map_err(|error| Failure::io(target, "written", &error))?,
            Err(_) => target.to_path_buf(),
        };
        let Some(name) = target.file_name() else {
            return Err(Failure::file(&target, "is no name of a file"));
        };
        // The process number keeps two runs apart.
        let mut part = name.to_os_string();
        part.push(format!(".{}.part", std::process::id()));
        let part = target.with_file_name(part);
        let file = File::create(&part).map_err(|error| Failure::io(&target, "written", &error))?;
        Ok(Output { target, part, file: BufWriter::with_capacity(PIECE, file), named: false })
    }

    /// Refuses a target that is an input: it would take the place of what it is made from.
    pub fn apart(target: &Path, inputs: &[&Path]) -> Done<()> {
        // The system's own number of a file, the same by whatever path or link.
        let number = |path: &Path| fs::metadata(path).ok().map(|file| (file.dev(), file.ino()));
        // A target that is not there yet is none of the inputs.
        let Some(own) = number(target) else { return Ok(()) };
        match inputs.iter().find(|input| number(input) == Some(own)) {
            Some(input) => Err(Failure::file(target, format!("is the same file as the input {}", input.display()))),
            None => Ok(()),
        }
    }

    /// Whether the file could be created; for before long work.
    pub fn check(target: &Path) -> Done<()> {
        Output::create(target).map(|_| ())
    }

    pub fn bytes(&mut self, bytes: &[u8]) -> Done<()> {
        self.file.write_all(bytes).map_err(|error| Failure::io(&self.target, "written", &error))
    }

    pub fn f32s(&mut self, values: &[f32]) -> Done<()> {
        values.iter().try_for_each(|value| self.bytes(&value.to_le_bytes()))
    }

    /// Gives the file its name, once all of it is on the disk.
    pub fn finish(mut self) -> Done<()> {
        let done = self
            .file
            .flush()
            .and_then(|()| self.file.get_ref().sync_all())
            .and_then(|()| fs::rename(&self.part, &self.target));
        done.map_err(|error| Failure::io(&self.target, "written", &error))?;
        self.named = true;
        // The new name itself is kept in the folder; not every system can be asked to store that.
        let folder = self.target.parent().filter(|folder| !folder.as_os_str().is_empty());
        if let Ok(folder) = File::open(folder.unwrap_or(Path::new("."))) {
            let _ = folder.sync_all();
        }
        Ok(())
    }
}

impl Drop for Output {
    fn drop(&mut self) {
        if !self.named {
            let _ = fs::remove_file(&self.part);
        }
    }
}
