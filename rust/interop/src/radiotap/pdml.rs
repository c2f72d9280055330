//! tshark's decode of a file in PDML: the radiotap fields of each packet.

/// A field that tshark shows.
#[derive(Debug, PartialEq)]
pub struct Shown {
    pub name: String,
    pub start: usize,
    pub size: usize,
    /// As tshark writes the value.
    pub show: String,
    /// The octets in hexadecimal, empty for a field of several parts.
    pub octets: String,
}

/// The value of an attribute of an element.
fn attribute<'a>(element: &'a str, name: &str) -> Option<&'a str> {
    let (_, behind) = element.split_once(&format!(" {name}=\""))?;
    behind.split_once('"').map(|(value, _)| value)
}

/// The radiotap field of a line, if it holds one.
fn field(line: &str) -> Option<Shown> {
    let name = attribute(line, "name")?.strip_prefix("radiotap.")?;
    let text = |name| attribute(line, name).unwrap_or_default().to_string();
    Some(Shown {
        name: name.to_string(),
        start: attribute(line, "pos")?.parse().ok()?,
        size: attribute(line, "size")?.parse().ok()?,
        show: text("show"),
        octets: text("value"),
    })
}

/// The radiotap fields of each packet, in tshark's order.
pub fn packets(text: &str) -> Vec<Vec<Shown>> {
    let packets = text.split("<packet>").skip(1);
    packets
        .map(|packet| packet.lines().filter_map(field).collect())
        .collect()
}
