//! The machine that the table is made on, where its files are, and the bytes that this process has
//! written.

use saved::grouped;
use std::fs::{metadata, read_to_string};
use std::io;
use std::os::unix::fs::MetadataExt;
use std::path::Path;
use std::thread::available_parallelism;

fn field<'a>(text: &'a str, name: &str) -> &'a str {
    text.lines()
        .find(|line| line.starts_with(name))
        .and_then(|line| line.split_once(':'))
        .map_or("unknown", |(_, value)| value.trim())
}

pub fn describe() -> String {
    let cpu = read_to_string("/proc/cpuinfo").unwrap_or_default();
    let kernel = read_to_string("/proc/sys/kernel/osrelease").unwrap_or_default();
    format!(
        "{} cores, {}, Linux {}",
        available_parallelism().map_or(0, usize::from),
        field(&cpu, "model name"),
        kernel.trim(),
    )
}

/// How busy the machine was in the last minute.
pub fn load() -> String {
    let load = read_to_string("/proc/loadavg").unwrap_or_default();
    load.split(' ').next().unwrap_or("unknown").into()
}

/// Where the stores' files are.
pub struct Place {
    /// The kind of the file system.
    kind: String,
    /// Physical and logical sector of the device below, if there is one.
    sectors: Option<[f64; 2]>,
}

impl Place {
    pub fn of(folder: &Path) -> io::Result<Place> {
        Ok(Place {
            kind: file_system(folder).unwrap_or("unknown".into()),
            sectors: sectors(metadata(folder)?.dev()),
        })
    }

    /// A disk, or else memory.
    pub fn is_disk(&self) -> bool {
        self.kind != "tmpfs" && self.kind != "ramfs"
    }

    pub fn describe(&self) -> String {
        let kind = &self.kind;
        match &self.sectors {
            Some(sectors) => {
                let [physical, logical] = sectors.map(grouped);
                format!("{kind}, sectors of {physical} bytes, {logical} logical")
            }
            None => format!("{kind}, no block device below"),
        }
    }
}

/// The kind of the file system that a folder is on.
fn file_system(folder: &Path) -> Option<String> {
    let mounts = read_to_string("/proc/mounts").ok()?;
    let fields = mounts
        .lines()
        .map(|line| line.split(' ').collect::<Vec<_>>());
    fields
        // A space within a path is an escape there.
        .map(|mount| (mount[1].replace("\\040", " "), mount[2]))
        .filter(|(point, _)| folder.starts_with(point))
        .max_by_key(|(point, _)| point.len())
        .map(|(_, kind)| kind.into())
}

/// Of a device by its number; a partition has those of the device that it is part of.
fn sectors(device: u64) -> Option<[f64; 2]> {
    let major = (device >> 8) & 0xfff | (device >> 32) & !0xfff;
    let minor = device & 0xff | (device >> 12) & 0xffff_ff00;
    let told = |name: &str| {
        let below = ["queue", "../queue"].iter().find_map(|queue| {
            read_to_string(format!("/sys/dev/block/{major}:{minor}/{queue}/{name}")).ok()
        });
        below?.trim().parse().ok()
    };
    Some([told("physical_block_size")?, told("logical_block_size")?])
}

/// Bytes handed to write calls so far; stores to mapped memory are not in it.
pub fn bytes_written() -> u64 {
    let io = read_to_string("/proc/self/io").expect("/proc/self/io");
    field(&io, "wchar").parse().expect("a number of bytes")
}
