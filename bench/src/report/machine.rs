//! A description of the machine and the compiler.

use std::fs;

/// The value of the first line with this name in a file of `name : value` lines.
fn value(text: &str, name: &str) -> Option<String> {
    text.lines()
        .filter_map(|line| line.split_once(':'))
        .find(|(key, _)| key.trim() == name)
        .map(|(_, value)| value.split_whitespace().collect::<Vec<_>>().join(" "))
}

/// Processor, cores, cache and compiler, one line each.
pub fn description() -> String {
    let text = fs::read_to_string("/proc/cpuinfo").unwrap_or_default();
    let told = |name| value(&text, name).unwrap_or_else(|| "unknown".into());
    let family = ["cpu family", "model", "stepping"].map(told);
    let threads = text
        .lines()
        .filter(|line| line.starts_with("processor"))
        .count();
    [
        format!(
            "- Processor: {} (family {}, model {}, stepping {})",
            told("model name"),
            family[0],
            family[1],
            family[2]
        ),
        format!("- Logical processors: {threads}"),
        format!("- Cache: {}", told("cache size")),
        format!("- Compiler: {}", env!("RUSTC_VERSION")),
    ]
    .join("\n")
}
