//! Finds the C libraries that are compared with: ISA-L sets the cfg `isal`,
//! jerasure the cfg `jerasure`. Without them the benchmark is built all the same.

use std::path::Path;
use std::process::Command;

const PEERS: [(&str, &[&str]); 2] = [
    ("isal", &["isal"]),
    ("jerasure", &["Jerasure", "gf_complete"]),
];

/// Where the linker finds a library; its bare name if nowhere.
fn place_of(library: &str) -> String {
    let name = format!("lib{library}.so");
    let answer = Command::new("cc")
        .arg(format!("-print-file-name={name}"))
        .output();
    let place = answer.map_or(name, |answer| {
        String::from_utf8_lossy(&answer.stdout).into_owned()
    });
    place.trim().to_owned()
}

fn main() {
    println!("cargo:rerun-if-changed=build.rs");
    for (name, libraries) in PEERS {
        println!("cargo:rustc-check-cfg=cfg({name})");
        let mut found = true;
        for library in libraries {
            let place = place_of(library);
            println!("cargo:rerun-if-changed={place}");
            found &= Path::new(&place).is_absolute();
        }
        if found {
            println!("cargo:rustc-cfg={name}");
            for library in libraries {
                println!("cargo:rustc-link-lib={library}");
            }
        }
    }
}
