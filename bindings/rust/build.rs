//! Links with lib/libmincut.a of the folder that MINCUT_PREFIX names, which `./library PREFIX` made; without it with libmincut.a in `out`
//! at the top of the repository, where `./library` made it, or in `lib` at the top of a release.
use std::env;
use std::path::PathBuf;

fn main() {
    println!("cargo:rerun-if-env-changed=MINCUT_PREFIX");
    let top = PathBuf::from(env::var_os("CARGO_MANIFEST_DIR").unwrap()).join("../..");
    let own = if top.join("lib/libmincut.a").is_file() { top.join("lib") } else { top.join("out") };
    let folder = env::var_os("MINCUT_PREFIX").map_or(own, |prefix| PathBuf::from(prefix).join("lib"));
    println!("cargo:rerun-if-changed={}", folder.join("libmincut.a").display());
    println!("cargo:rustc-link-search=native={}", folder.display());
    println!("cargo:rustc-link-lib=static=mincut");
}
