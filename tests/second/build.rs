//! Says by the cfg `proved` that the proved library is linked: where RATTLE_LIBS names its folder.
//! Without it the second program still builds and its own tests run; the comparisons then fail.

fn main() {
    println!("cargo:rustc-check-cfg=cfg(proved)");
    println!("cargo:rerun-if-changed=build.rs");
    println!("cargo:rerun-if-env-changed=RATTLE_LIBS");
    if std::env::var("RATTLE_LIBS").is_ok() {
        println!("cargo:rustc-cfg=proved");
    }
}
