//! Links the proved library from the folder that RATTLE_LIBS names. Without it a crate can use the answers, but call no entry.

fn main() {
    println!("cargo:rerun-if-changed=build.rs");
    println!("cargo:rerun-if-env-changed=RATTLE_LIBS");
    match std::env::var("RATTLE_LIBS") {
        Ok(folder) => {
            println!("cargo:rustc-link-search=native={folder}");
            println!("cargo:rustc-link-lib=static=jeguarivo");
            println!("cargo:rerun-if-changed={folder}/libjeguarivo.a");
        }
        Err(_) => println!("cargo:warning=RATTLE_LIBS, the folder of libjeguarivo.a, is not set: nothing is linked"),
    }
}
