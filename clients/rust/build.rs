//! Links libpiecepick.a: the one that clients/build.sh makes, or else that of the folder `release`.

use std::env;
use std::path::{Path, PathBuf};

const ARCHIVE: &str = "libpiecepick.a";

/// The folder that the environment names; else that of the checkout, where the library was built or in its release.
fn folder() -> PathBuf {
    if let Some(named) = env::var_os("PIECEPICK_LIB_DIR") {
        return PathBuf::from(named);
    }
    let clients = Path::new(env!("CARGO_MANIFEST_DIR")).join("..");
    let built = clients.join("out");
    if built.join(ARCHIVE).exists() {
        built
    } else {
        let processor = env::var("CARGO_CFG_TARGET_ARCH").unwrap_or_default();
        clients.join(format!("../release/{processor}-linux/lib"))
    }
}

fn main() {
    println!("cargo:rerun-if-env-changed=PIECEPICK_LIB_DIR");
    let folder = folder();
    let archive = folder.join(ARCHIVE);
    println!("cargo:rerun-if-changed={}", archive.display());
    assert!(
        archive.exists(),
        "there is no {}: clients/build.sh builds it, or PIECEPICK_LIB_DIR names the folder of another one",
        archive.display()
    );
    println!("cargo:rustc-link-search=native={}", folder.display());
    println!("cargo:rustc-link-lib=static=piecepick");
}
