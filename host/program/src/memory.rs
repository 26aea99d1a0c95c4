//! What a training needs in memory, told before it is taken.

use crate::failure::{Done, Failure};
use std::mem::size_of;

/// The buffers of a training, by name and bytes.
pub struct Need(Vec<(&'static str, u64)>);

impl Need {
    pub fn new() -> Need {
        Need(Vec::new())
    }

    pub fn of<T>(mut self, name: &'static str, count: usize) -> Need {
        self.0.push((name, count as u64 * size_of::<T>() as u64));
        self
    }

    pub fn total(&self) -> u64 {
        self.0.iter().map(|(_, bytes)| bytes).sum()
    }

    /// As "384 MB: samples 320 MB, event slots 64 MB"; parts too small to matter are left out.
    pub fn in_words(&self) -> String {
        let total = self.total();
        let parts: Vec<String> = self
            .0
            .iter()
            .filter(|(_, bytes)| *bytes >= total / 50)
            .map(|(name, bytes)| format!("{name} {}", size(*bytes)))
            .collect();
        format!("{}: {}", size(total), parts.join(", "))
    }

    /// Fails if the system says that it has less.
    pub fn check(&self) -> Done<()> {
        match available() {
            Some(free) if free < self.total() => Err(Failure::Memory(format!(
                "the training needs {}; {} are available (--anyway tries it all the same)",
                self.in_words(),
                size(free)
            ))),
            _ => Ok(()),
        }
    }
}

/// A buffer of zeros, or a failure where the system gives no room.
pub fn zeros<T: Clone + Default>(count: usize) -> Done<Vec<T>> {
    let mut buffer = Vec::new();
    resize(&mut buffer, count)?;
    Ok(buffer)
}

/// Gives a buffer this length, or fails where the system gives no room.
pub fn resize<T: Clone + Default>(buffer: &mut Vec<T>, count: usize) -> Done<()> {
    let bytes = count as u64 * size_of::<T>() as u64;
    let more = count.saturating_sub(buffer.len());
    buffer.try_reserve_exact(more).map_err(|_| Failure::Memory(format!("no memory for {}", size(bytes))))?;
    buffer.resize(count, T::default());
    Ok(())
}

/// What Linux says is available; unknown elsewhere.
fn available() -> Option<u64> {
    let text = std::fs::read_to_string("/proc/meminfo").ok()?;
    let line = text.lines().find(|line| line.starts_with("MemAvailable:"))?;
    let kilobytes: u64 = line.split_whitespace().nth(1)?.parse().ok()?;
    Some(kilobytes * 1024)
}

pub fn size(bytes: u64) -> String {
    match bytes {
        0..10_000 => format!("{bytes} bytes"),
        10_000..10_000_000 => format!("{} kB", bytes.div_ceil(1000)),
        10_000_000..10_000_000_000 => format!("{} MB", bytes.div_ceil(1_000_000)),
        _ => format!("{} GB", bytes.div_ceil(1_000_000_000)),
    }
}
