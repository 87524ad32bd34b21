//! Copies the published networking.rs, byte for byte, out of the folder that TIMELY_SRC names (it holds src/).
use std::{env, fs, path::PathBuf};

fn main() {
    println!("cargo:rerun-if-env-changed=TIMELY_SRC");
    let folder = env::var("TIMELY_SRC").expect("TIMELY_SRC: the folder of timely_communication 0.31.0 that holds src/");
    let published = PathBuf::from(folder).join("src/networking.rs");
    println!("cargo:rerun-if-changed={}", published.display());
    let out = PathBuf::from(env::var("OUT_DIR").unwrap());
    let copy = out.join("networking.rs");
    let bytes = fs::read(&published).unwrap_or_else(|error| panic!("{}: {error}", published.display()));
    fs::write(&copy, bytes).unwrap();
    // The file begins with comments on itself, which `include!` does not take; a module with a path does.
    let module = format!("#[allow(dead_code)]\n#[path = {:?}]\nmod networking;\n", copy.display().to_string());
    fs::write(out.join("published.rs"), module).unwrap();
}
