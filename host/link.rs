// Links one of the engine's archives that `.ci/archives` makes; build scripts include this.
fn link(archive: &str) {
    let here = std::env::var("CARGO_MANIFEST_DIR").unwrap();
    let archives = format!("{here}/../../target/staticlib");
    println!("cargo:rustc-link-search=native={archives}");
    println!("cargo:rustc-link-lib=static={archive}");
    println!("cargo:rerun-if-changed={archives}/lib{archive}.a");
}
