//! Links the static library that `make lib` builds in `crates/wivulameno/out`.

use std::path::Path;

fn main() {
    let package = Path::new(env!("CARGO_MANIFEST_DIR"));
    let repository = package.ancestors().nth(2).expect("rust/wivulameno");
    let folder = repository.join("crates/wivulameno/out");
    let archive = folder.join("libwivulameno.a");
    println!("cargo::rerun-if-changed=build.rs");
    println!("cargo::rerun-if-changed={}", archive.display());
    if !archive.is_file() {
        eprintln!("error: there is no {}", archive.display());
        eprintln!("run `make lib` in {} first", repository.display());
        std::process::exit(1);
    }
    println!("cargo::rustc-link-search=native={}", folder.display());
    println!("cargo::rustc-link-lib=static=wivulameno");
}
