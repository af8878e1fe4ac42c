//! Links the first implementation (libcapi.a in the folder LEATGARNET_LIB), only when the feature `door` asks for it.
fn main() {
    println!("cargo:rerun-if-changed=build.rs");
    println!("cargo:rerun-if-env-changed=LEATGARNET_LIB");
    if std::env::var_os("CARGO_FEATURE_DOOR").is_some() {
        let folder = std::env::var("LEATGARNET_LIB").expect("LEATGARNET_LIB must name the folder that holds libcapi.a");
        println!("cargo:rerun-if-changed={folder}/libcapi.a");
        println!("cargo:rustc-link-search=native={folder}");
        println!("cargo:rustc-link-lib=static=capi");
        // A library written in Rust brings its own panic handler, or its own compiler's; the first one found is taken.
        println!("cargo:rustc-link-arg-bins=-Wl,--allow-multiple-definition");
    }
}
