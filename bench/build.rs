// Links what `rt lib` wrote in crates/retimer: run that first.
fn main() {
    println!("cargo:rerun-if-env-changed=RETIMER_DIR");
    let dir = match std::env::var_os("RETIMER_DIR") {
        Some(dir) => std::path::PathBuf::from(dir),
        None => std::path::Path::new(env!("CARGO_MANIFEST_DIR")).join("../crates/retimer/out"),
    };
    println!("cargo:rustc-link-search=native={}", dir.display());
    println!("cargo:rustc-link-lib=static=retimer");
    println!("cargo:rerun-if-changed={}", dir.join("libretimer.a").display());
}
