//! Finds the archive of the proved loader: HAGOLSTAN_LIB is the folder of libhagolstan.a.

fn main() {
    println!("cargo::rustc-check-cfg=cfg(archive)");
    println!("cargo::rerun-if-env-changed=HAGOLSTAN_LIB");
    println!("cargo::rerun-if-changed=build.rs");
    if let Ok(folder) = std::env::var("HAGOLSTAN_LIB") {
        println!("cargo::rerun-if-changed={folder}/libhagolstan.a");
        println!("cargo::rustc-link-search=native={folder}");
        println!("cargo::rustc-cfg=archive");
    }
}
