//! Links the shims that `bench/run` could compile into the program `bench`; each is a cfg.
//! BENCH_SHIMS is the folder of healpix.o, proj.o and s2.o, each with a file of its link words.

use std::env::var;
use std::fs::read_to_string;
use std::path::Path;

fn main() {
    println!("cargo:rerun-if-env-changed=BENCH_SHIMS");
    println!("cargo:rerun-if-changed=build.rs");
    for name in ["healpix", "proj", "s2"] {
        println!("cargo:rustc-check-cfg=cfg({name})");
        if let Ok(folder) = var("BENCH_SHIMS") {
            link_shim(Path::new(&folder), name);
        }
    }
}

fn link_shim(folder: &Path, name: &str) {
    let object = folder.join(format!("{name}.o"));
    println!("cargo:rerun-if-changed={}", object.display());
    let Ok(words) = read_to_string(folder.join(format!("{name}.link"))) else {
        return;
    };
    println!("cargo:rustc-cfg={name}");
    println!("cargo:rustc-link-arg-bin=bench={}", object.display());
    for word in words.split_whitespace() {
        println!("cargo:rustc-link-arg-bin=bench={word}");
    }
}
