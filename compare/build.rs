//! Links the proved implementation into `bench` and `fuzz`, and only there.

use std::env;
use std::path::PathBuf;

fn main() {
    println!("cargo:rerun-if-changed=build.rs");
    println!("cargo:rerun-if-env-changed=CAPI_DIR");
    let folder = env::var_os("CAPI_DIR").map_or_else(
        || PathBuf::from(env!("CARGO_MANIFEST_DIR")).join("../target/staticlib"),
        PathBuf::from,
    );
    let library = folder.join("libcapi.a");
    for (binary, feature) in [("bench", "CARGO_FEATURE_BENCH"), ("fuzz", "CARGO_FEATURE_FUZZ")] {
        if env::var_os(feature).is_some() {
            println!("cargo:rerun-if-changed={}", library.display());
            println!("cargo:rustc-link-arg-bin={binary}={}", library.display());
        }
    }
}
