//! Tells cargo where the archive of the proved functions is. An installed package has a link to the installed one beside
//! this file; in the source tree `./build` makes it.

use std::path::Path;

/// Where the archive may be, from this package's folder, and its name.
const ARCHIVES: [(&str, &str); 2] = [(".", "trails"), ("../../target/staticlib", "export")];

const MISSING: &str = "\
The archive of the proved functions isn't there. In the source tree, run './build', which proves everything first. In an
installed package, put libtrails.a there again by './install PREFIX'.";

fn main() {
    let here = std::env::var("CARGO_MANIFEST_DIR").expect("cargo sets it");
    println!("cargo:rerun-if-changed=build.rs");
    let found = ARCHIVES.into_iter().find_map(|(folder, name)| {
        let folder = Path::new(&here).join(folder);
        let archive = folder.join(format!("lib{name}.a"));
        archive.is_file().then_some((folder, archive, name))
    });
    let Some((folder, archive, name)) = found else {
        eprintln!("{MISSING}");
        std::process::exit(1);
    };
    println!("cargo:rerun-if-changed={}", archive.display());
    println!("cargo:rustc-link-search=native={}", folder.display());
    println!("cargo:rustc-link-lib=static={name}");
}
