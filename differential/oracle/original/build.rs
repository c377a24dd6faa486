//! Copies the two files of the original, tests their checksums and appends what the judge must see.

use std::path::{Path, PathBuf};
use std::process::Command;
use std::{env, fs};

/// The files that are copied, and what is appended to each copy.
const FILES: [(&str, &str); 2] = [("src/lib.rs", "shown/lib.rs"), ("src/id.rs", "shown/id.rs")];

fn main() {
    let here = PathBuf::from(env::var("CARGO_MANIFEST_DIR").unwrap());
    let differential = here.join("../..");
    println!("cargo:rerun-if-env-changed=HAPPY_EYEBALLS_SRC");
    let source = match env::var_os("HAPPY_EYEBALLS_SRC") {
        Some(path) => PathBuf::from(path),
        None => differential.join("../../shared/docs/src"),
    };
    let sums = differential.join("sources.sha256");
    println!("cargo:rerun-if-changed={}", sums.display());
    let sums = fs::read_to_string(sums).expect("differential/sources.sha256");

    let out = PathBuf::from(env::var("OUT_DIR").unwrap());
    for (file, shown) in FILES {
        let from = source.join(file);
        println!("cargo:rerun-if-changed={}", from.display());
        println!("cargo:rerun-if-changed={shown}");
        check(&from, expected(&sums, file));
        let mut text = fs::read_to_string(&from).unwrap();
        text.push_str(&fs::read_to_string(here.join(shown)).unwrap());
        let to = out.join(Path::new(file).file_name().unwrap());
        fs::write(to, text).unwrap();
    }
    let entry =
        format!("#[path = {:?}]\nmod original;\npub use original::*;\n", out.join("lib.rs"));
    fs::write(out.join("entry.rs"), entry).unwrap();
}

/// The checksum that the list gives for a file.
fn expected<'a>(sums: &'a str, file: &str) -> &'a str {
    sums.lines()
        .filter_map(|line| line.split_once("  "))
        .find(|(_, name)| *name == file)
        .map(|(sum, _)| sum)
        .unwrap_or_else(|| panic!("differential/sources.sha256 has no line for {file}"))
}

/// Stops the build unless the file has the checksum.
fn check(file: &Path, expected: &str) {
    if !file.is_file() {
        stop(&format!(
            "the original isn't at {}\nSet HAPPY_EYEBALLS_SRC to a checkout of mozilla/happy-eyeballs at commit c5ad303ba9.",
            file.display()
        ));
    }
    let output = Command::new("sha256sum").arg(file).output().expect("sha256sum runs");
    let found = String::from_utf8_lossy(&output.stdout);
    let found = found.split_whitespace().next().unwrap_or("");
    if found != expected {
        stop(&format!(
            "{} isn't the file of commit c5ad303ba9\n  expected sha256 {expected}\n  found    sha256 {found}",
            file.display()
        ));
    }
}

fn stop(message: &str) -> ! {
    eprintln!("\nhappy-eyeballs: {message}\n");
    std::process::exit(1);
}
