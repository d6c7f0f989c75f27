//! With the feature `libtorrent`, links the picker of libtorrent that ../libtorrent/build.sh makes.

use std::env;
use std::path::PathBuf;

const FOLDER: &str = "SWARM_LIBTORRENT";

fn main() {
    println!("cargo:rerun-if-changed=build.rs");
    if env::var_os("CARGO_FEATURE_LIBTORRENT").is_none() {
        return;
    }
    println!("cargo:rerun-if-env-changed={FOLDER}");
    let folder = env::var_os(FOLDER).map(PathBuf::from);
    let archive = folder.as_ref().map(|folder| folder.join("libswarm_picker.a")).filter(|archive| archive.exists());
    let (Some(folder), Some(archive)) = (folder, archive) else {
        panic!("{FOLDER} has to name a folder with libswarm_picker.a, which tools/libtorrent/build.sh makes");
    };
    println!("cargo:rerun-if-changed={}", archive.display());
    println!("cargo:rustc-link-search=native={}", folder.display());
    println!("cargo:rustc-link-lib=static=swarm_picker");
    println!("cargo:rustc-link-lib=stdc++");
}
