//! Finds libpinpool.a in the folder that PINPOOL_LIB_DIR names.
use std::env;
use std::path::Path;

fn main() {
    println!("cargo:rerun-if-env-changed=PINPOOL_LIB_DIR");
    match env::var("PINPOOL_LIB_DIR") {
        Ok(folder) => {
            let library = Path::new(&folder).join("libpinpool.a");
            if !library.is_file() {
                panic!("PINPOOL_LIB_DIR names a folder without libpinpool.a: {folder}");
            }
            println!("cargo:rerun-if-changed={}", library.display());
            println!("cargo:rustc-link-search=native={folder}");
            println!("cargo:rustc-link-lib=static=pinpool");
        }
        // (where it was installed, the linker finds it)
        Err(_) => println!("cargo:rustc-link-lib=pinpool"),
    }
}
