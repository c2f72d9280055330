//! Keeps the compiler's version for the report.

use std::env;
use std::process::Command;

/// What the compiler says of itself.
fn rustc_version() -> String {
    let rustc = env::var("RUSTC").expect("set by cargo");
    let output = Command::new(rustc).arg("--version").output();
    let told = output.map(|output| String::from_utf8_lossy(&output.stdout).trim().to_string());
    told.unwrap_or_else(|_| "rustc of an unknown version".to_string())
}

fn main() {
    println!("cargo:rerun-if-changed=build.rs");
    println!("cargo:rustc-env=RUSTC_VERSION={}", rustc_version());
}
