//! Brings the Rust into OUT_DIR, unchanged: the files whose sums stand in SUMS are checked, four are copied whole, and
//! the items of lib.rs that they need are cut out line by line.

use std::path::{Path, PathBuf};
use std::process::{exit, Command};
use std::{env, fs};

/// The items of lib.rs that are taken, by the start of their first line.
const ITEMS: [&str; 10] = [
    "pub const MAX_CID_LEN:",
    "pub const MIN_CLIENT_INITIAL_LEN:",
    "pub const TIMER_GRANULARITY:",
    "pub type Result<",
    "pub struct ConnectionId {",
    "impl ConnectionId {",
    "impl std::ops::Deref for ConnectionId {",
    "impl fmt::Debug for ConnectionId {",
    "impl fmt::Display for ConnectionId {",
    "pub struct FourTuple {",
];

fn main() {
    let home = PathBuf::from(env::var("CARGO_MANIFEST_DIR").unwrap());
    let out = PathBuf::from(env::var("OUT_DIR").unwrap());
    let sources = match env::var_os("TQUIC_SRC") {
        Some(given) => home.join(given),
        None => home.join("../../shared/docs/src"),
    };
    println!("cargo:rerun-if-env-changed=TQUIC_SRC");
    println!("cargo:rerun-if-changed=SUMS");
    println!("cargo:rerun-if-changed=build.rs");

    let sums = fs::read_to_string(home.join("SUMS")).unwrap();
    for line in sums.lines() {
        let (sum, name) = line.split_once("  ").unwrap_or_else(|| fail(&format!("SUMS: not a sum: {line}")));
        let file = sources.join(name);
        println!("cargo:rerun-if-changed={}", file.display());
        if sha256(&file) != sum {
            fail(&format!(
                "{} is not the file of tquic 1.6.0 that SUMS names; set TQUIC_SRC to the right folder",
                file.display()
            ));
        }
        if name != "lib.rs" {
            fs::write(out.join(file.file_name().unwrap()), fs::read(&file).unwrap()).unwrap();
        }
    }

    let lib = fs::read_to_string(sources.join("lib.rs")).unwrap();
    fs::write(out.join("lib_parts.rs"), ITEMS.map(|start| cut(&lib, start)).concat()).unwrap();
    // error.rs opens with an inner comment, which include! refuses, and #[path] takes no macro.
    let module = format!("#[allow(warnings)]\n#[path = {:?}]\npub mod error;\n", out.join("error.rs"));
    fs::write(out.join("error_module.rs"), module).unwrap();
}

fn sha256(file: &Path) -> String {
    match Command::new("sha256sum").arg(file).output() {
        Ok(output) if output.status.success() => String::from_utf8_lossy(&output.stdout).chars().take(64).collect(),
        _ => fail(&format!("{} can't be read; set TQUIC_SRC to the folder with tquic's lib.rs", file.display())),
    }
}

/// The item that starts so, with the comments and attributes above it.
fn cut(text: &str, start: &str) -> String {
    let lines: Vec<&str> = text.lines().collect();
    let at = lines.iter().position(|line| line.starts_with(start));
    let at = at.unwrap_or_else(|| fail(&format!("lib.rs has no line that starts with `{start}`")));
    let above = lines[..at].iter().rev().take_while(|line| line.starts_with("///") || line.starts_with("#[")).count();
    let below = match lines[at].ends_with(';') {
        true => 0,
        false => lines[at..].iter().position(|line| *line == "}").unwrap(),
    };
    lines[at - above..=at + below].join("\n") + "\n"
}

fn fail(why: &str) -> ! {
    eprintln!("oracle: {why}");
    exit(1)
}
