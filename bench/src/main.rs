//! Times the library beside plain Rust that gives the same answers, and prints tables.
//! Usage: bench [FOLDER]; with a folder, BENCHMARKS.md and benchmarks.svg are written into it.
//! It takes about a minute and 700 MiB of memory.

mod agree;
mod library;
mod made;
mod measure;
mod plain;
mod report;
mod timing;

use random::prng::Prng;
use std::fs;
use std::path::Path;

fn main() -> std::io::Result<()> {
    let folder = std::env::args().nth(1);
    let prng = &mut Prng::new(1);
    agree::btsnoop::damaged(prng);
    agree::stream::damaged(prng);
    agree::radiotap::damaged(prng);
    agree::le::damaged(prng);
    eprintln!("same answers to {} damaged inputs", agree::ALL_DAMAGED);
    let results = report::Results {
        captures: measure::captures::all(),
        streams: measure::streams::all(),
        headers: measure::headers::all(),
        packets: measure::packets::all(),
    };
    let tables = report::table::all(&results);
    print!("{tables}");
    if let Some(folder) = folder {
        let folder = Path::new(&folder);
        fs::create_dir_all(folder)?;
        fs::write(folder.join(report::PLOT), report::plot::svg(&results))?;
        fs::write(folder.join("BENCHMARKS.md"), report::page::page(&tables))?;
    }
    Ok(())
}
