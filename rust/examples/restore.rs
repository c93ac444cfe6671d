//! Restores a settings backup: reads JSON8, walks its nodes and fills a struct.
//! Nothing is restored unless everything fits.
//!
//! ```sh
//! cargo run --offline --example restore < ../samples/settings.json8
//! ```

use std::io::{self, Read, Write};

const NAME_MAX: usize = 32;
const PORTS_MAX: usize = 4;
const FOLDERS_MAX: usize = 8;

/// Names are bytes.
#[derive(Debug, Default)]
pub struct Settings {
    pub name: Vec<u8>,
    pub dhcp: bool,
    pub ports: Vec<u16>,
    pub folders: Vec<Vec<u8>>,
}

/// What is wrong with a setting, and the node where it is.
pub struct Fault {
    node: usize,
    what: &'static str,
}

fn at(node: j8::Node, what: &'static str) -> Fault {
    let node = node.index();
    Fault { node, what }
}

fn name(node: j8::Node) -> Result<Vec<u8>, Fault> {
    let bytes = node
        .as_bytes()
        .ok_or_else(|| at(node, "a name is no string"))?;
    if bytes.len() > NAME_MAX {
        return Err(at(node, "a name is over 32 bytes"));
    }
    Ok(bytes.to_vec())
}

/// A number is left as text, so the program decides what it may be.
fn port(node: j8::Node) -> Result<u16, Fault> {
    let digits = node
        .as_number()
        .filter(|_| node.kind() == j8::Kind::Integer);
    let digits = digits.filter(|digits| !digits.starts_with('-'));
    let digits = digits.ok_or_else(|| at(node, "a port is no whole number"))?;
    digits
        .parse()
        .map_err(|_| at(node, "a port is over 65,535"))
}

fn ports(node: j8::Node) -> Result<Vec<u16>, Fault> {
    if node.kind() != j8::Kind::List || node.length() > PORTS_MAX {
        return Err(at(node, "ports are no list of at most 4"));
    }
    node.children().map(port).collect()
}

fn folders(node: j8::Node) -> Result<Vec<Vec<u8>>, Fault> {
    if node.kind() != j8::Kind::List || node.length() > FOLDERS_MAX {
        return Err(at(node, "folders are no list of at most 8"));
    }
    node.children().map(name).collect()
}

/// Keys that this printer doesn't know are passed over, and a later pair of the
/// same key counts.
pub fn restore(root: j8::Node) -> Result<Settings, Fault> {
    let mut settings = Settings::default();
    if root.kind() != j8::Kind::Dict {
        return Err(at(root, "the settings are no dict"));
    }
    for (key, value) in root.pairs() {
        match key {
            b"name" => settings.name = name(value)?,
            b"folders" => settings.folders = folders(value)?,
            b"network" if value.kind() != j8::Kind::Dict => {
                return Err(at(value, "the network is no dict"));
            }
            b"network" => {
                for (key, value) in value.pairs() {
                    match key {
                        b"dhcp" => {
                            let flag = value.as_bool();
                            settings.dhcp =
                                flag.ok_or_else(|| at(value, "a flag is neither true nor false"))?;
                        }
                        b"ports" => settings.ports = ports(value)?,
                        _ => {}
                    }
                }
            }
            _ => {}
        }
    }
    Ok(settings)
}

/// Prints what was restored, or why nothing was, and answers which it is.
pub fn run(mut file: impl Read, out: &mut impl Write) -> io::Result<bool> {
    let mut text = Vec::new();
    file.read_to_end(&mut text)?;
    let backup = match j8::Json8::read(text) {
        Ok(backup) => backup,
        Err(error) => {
            let (number, place) = (error.number(), error.place);
            writeln!(out, "not restored: refusal {number} at byte {place}")?;
            return Ok(false);
        }
    };
    let settings = match restore(backup.root()) {
        Ok(settings) => settings,
        Err(Fault { node, what }) => {
            writeln!(out, "not restored: node {node}, {what}")?;
            return Ok(false);
        }
    };
    print_name("name", &settings.name, out)?;
    writeln!(out, "dhcp {}", if settings.dhcp { "on" } else { "off" })?;
    for port in &settings.ports {
        writeln!(out, "port {port}")?;
    }
    for folder in &settings.folders {
        print_name("folder", folder, out)?;
    }
    Ok(true)
}

fn print_name(label: &str, name: &[u8], out: &mut impl Write) -> io::Result<()> {
    write!(out, "{label} ")?;
    out.write_all(&j8::write_to_vec(name))?;
    writeln!(out)
}

fn main() -> io::Result<()> {
    let restored = run(io::stdin().lock(), &mut io::stdout().lock())?;
    std::process::exit(i32::from(!restored));
}
