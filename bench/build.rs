//! Links the engine's library, which tools/library has put into target/staticlib.
use std::path::Path;

fn main() {
    let folder = Path::new(env!("CARGO_MANIFEST_DIR")).join("../target/staticlib");
    assert!(folder.join("libengine.a").exists(), "libengine.a is not built; run: tools/library");
    println!("cargo:rerun-if-changed={}", folder.join("libengine.a").display());
    println!("cargo:rustc-link-search=native={}", folder.display());
    println!("cargo:rustc-link-lib=static=engine");
}
