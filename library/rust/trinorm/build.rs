//! Finds the proved archive: in the folder that TRINORM_LIB_DIR names, in the repository that this crate lies in, or in
//! the release that it came with.
use std::path::{Path, PathBuf};

const ARCHIVE: &str = "libtrinorm_c.a";

fn folders() -> Vec<PathBuf> {
    println!("cargo:rerun-if-env-changed=TRINORM_LIB_DIR");
    if let Some(named) = std::env::var_os("TRINORM_LIB_DIR") {
        return vec![PathBuf::from(named)];
    }
    let here = std::env::var_os("CARGO_MANIFEST_DIR").expect("cargo sets CARGO_MANIFEST_DIR");
    ["../../../crates/trinorm/out", "../../../../lib"]
        .iter()
        .map(|it| Path::new(&here).join(it))
        .collect()
}

fn main() {
    let folders = folders();
    let Some(found) = folders.iter().find(|it| it.join(ARCHIVE).is_file()) else {
        panic!("{ARCHIVE} was not found in {folders:?}; name its folder by TRINORM_LIB_DIR");
    };
    println!("cargo:rerun-if-changed={}", found.join(ARCHIVE).display());
    println!("cargo:rustc-link-search=native={}", found.display());
    println!("cargo:rustc-link-lib=static=trinorm_c");
}
