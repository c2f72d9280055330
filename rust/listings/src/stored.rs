//! The stored files: captures, and their listings beside them.

use model::listing::list;
use std::path::Path;
use std::{fs, io};

/// The damaged captures, each preceded by its length as 4 octets, and their listings in a row.
const DAMAGED_CAPTURES: &str = "damaged.captures";
const DAMAGED_LISTINGS: &str = "damaged.list";

/// A capture with its listing.
pub struct Stored {
    pub name: String,
    pub capture: Vec<u8>,
    pub listing: Vec<u8>,
}

/// Writes captures and the model's listings of them to a folder.
pub fn write(folder: &Path, named: &[(&str, Vec<u8>)], damaged: &[Vec<u8>]) -> io::Result<()> {
    fs::create_dir_all(folder)?;
    for (name, capture) in named {
        fs::write(folder.join(format!("{name}.btsnoop")), capture)?;
        fs::write(folder.join(format!("{name}.list")), list(capture))?;
    }
    let captures: Vec<u8> = damaged.iter().flat_map(|capture| joined(capture)).collect();
    let listings: Vec<u8> = damaged.iter().flat_map(|capture| list(capture)).collect();
    fs::write(folder.join(DAMAGED_CAPTURES), captures)?;
    fs::write(folder.join(DAMAGED_LISTINGS), listings)
}

/// A capture behind its length.
fn joined(capture: &[u8]) -> Vec<u8> {
    let length = (capture.len() as u32).to_be_bytes();
    [&length, capture].concat()
}

/// All stored captures of a folder: the named ones by name, then the damaged ones.
pub fn read(folder: &Path) -> io::Result<Vec<Stored>> {
    let mut all = Vec::new();
    for entry in fs::read_dir(folder)? {
        let path = entry?.path();
        if path.extension().is_some_and(|kind| kind == "btsnoop") {
            let name = path.file_stem().unwrap_or_default();
            all.push(Stored {
                name: name.to_string_lossy().into_owned(),
                capture: fs::read(&path)?,
                listing: fs::read(path.with_extension("list"))?,
            });
        }
    }
    all.sort_by(|one, other| one.name.cmp(&other.name));
    all.extend(read_damaged(folder)?);
    Ok(all)
}

/// The damaged captures, each with its part of the listings.
fn read_damaged(folder: &Path) -> io::Result<Vec<Stored>> {
    let captures = split_captures(&fs::read(folder.join(DAMAGED_CAPTURES))?);
    let listings = split_listings(&fs::read(folder.join(DAMAGED_LISTINGS))?);
    let Some(captures) = captures.filter(|captures| captures.len() == listings.len()) else {
        return Err(io::Error::other("damaged captures and listings do not fit"));
    };
    let pairs = captures.into_iter().zip(listings).enumerate();
    let stored = pairs.map(|(index, (capture, listing))| Stored {
        name: format!("damaged-{index:03}"),
        capture,
        listing,
    });
    Ok(stored.collect())
}

/// The captures, each behind its length; none where the lengths do not fit.
fn split_captures(mut octets: &[u8]) -> Option<Vec<Vec<u8>>> {
    let mut captures = Vec::new();
    while !octets.is_empty() {
        let (length, behind) = octets.split_first_chunk()?;
        let (capture, rest) = behind.split_at_checked(u32::from_be_bytes(*length) as usize)?;
        captures.push(capture.to_vec());
        octets = rest;
    }
    Some(captures)
}

/// The listings, each up to its last line.
fn split_listings(octets: &[u8]) -> Vec<Vec<u8>> {
    let mut listings = Vec::new();
    let mut listing = Vec::new();
    for line in octets.split_inclusive(|octet| *octet == b'\n') {
        listing.extend(line);
        if line.starts_with(b"end\t") || line.starts_with(b"stop\t") {
            listings.push(std::mem::take(&mut listing));
        }
    }
    listings
}
