//! Radiotap headers: made into a file, and compared with tshark's decode of it.

mod agree;
mod made;
mod names;
mod pdml;

use crate::pcap;
use agree::Agreed;
use random::prng::Prng;
use std::fs;
use std::path::Path;

/// How many headers.
const HEADERS: usize = 1000;

/// Differences that are printed.
const PRINTED: usize = 20;

/// Writes the headers into a pcap file.
pub fn write(file: &Path) -> std::io::Result<()> {
    let prng = &mut Prng::new(1);
    let packets: Vec<_> = (0..HEADERS).map(|_| made::packet(prng)).collect();
    fs::write(file, pcap::write(pcap::RADIOTAP, &packets))
}

/// Compares the readings of the file in all editions with tshark's decode; true where nothing differs.
pub fn compare(file: &Path, decode: &Path) -> std::io::Result<bool> {
    let (octets, text) = (fs::read(file)?, fs::read_to_string(decode)?);
    let (packets, shown) = (pcap::read(&octets), pdml::packets(&text));
    let mut agreed = Agreed::default();
    let mut differences = Vec::new();
    if packets.len() != shown.len() {
        differences.push(format!("{} packets, tshark {}", packets.len(), shown.len()));
    }
    for (index, (packet, shown)) in packets.iter().zip(&shown).enumerate() {
        for edition in 0..=3 {
            if let Err(difference) = agreed.packet(packet, edition, shown) {
                differences.push(format!(
                    "packet {} edition {edition}: {difference}",
                    index + 1
                ));
            }
        }
    }
    for difference in differences.iter().take(PRINTED) {
        println!("difference: {difference}");
    }
    report(&agreed);
    println!("radiotap: {} differences", differences.len());
    Ok(differences.is_empty())
}

/// Prints what agreed.
fn report(agreed: &Agreed) {
    for (name, count) in &agreed.parts {
        println!("{count:>8}  radiotap.{name}");
    }
    let Agreed {
        readings,
        stopped,
        continued,
        ..
    } = agreed;
    println!("radiotap: {readings} readings agree with tshark in pad, length, words and fields");
    println!("  {stopped} of them stop at a bit that the edition doesn't know, and agree up to it");
    println!("  {continued} of these stop in a continued word, where tshark shows no more either");
}
