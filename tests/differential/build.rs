// Links the static libraries of the repository, each made by `tests/libraries NAME`.
use std::path::Path;

fn main() {
    let here = std::env::var("CARGO_MANIFEST_DIR").expect("cargo names the package's folder");
    let folder = Path::new(&here).join("../../target/staticlib");
    println!("cargo:rustc-link-search=native={}", folder.display());
    for name in [
        "board",
        "board_opening",
        "board_counter",
        "board_search",
        "board_bound",
        "board_shares",
        "share_listing",
        "board_trace",
        "board_listing",
        "board_replay",
        "board_text",
        "board_check",
    ] {
        let archive = folder.join(format!("lib{name}.a"));
        if !archive.exists() {
            panic!(
                "{} is missing: run `tests/libraries {name}` first",
                archive.display()
            );
        }
        println!("cargo:rerun-if-changed={}", archive.display());
        println!("cargo:rustc-link-lib=static={name}");
    }
}
