//! Tells the linker where the archive is: the folder named by SLUSHFERRET_LIBRARY.

use std::env;
use std::path::Path;
use std::process::exit;

fn main() {
    println!("cargo:rerun-if-env-changed=SLUSHFERRET_LIBRARY");
    let folder = env::var_os("SLUSHFERRET_LIBRARY").unwrap_or_default();
    let folder = Path::new(&folder);
    let archive = folder.join("librobot.a");
    if !folder.is_absolute() || !archive.is_file() {
        eprintln!(
            "SLUSHFERRET_LIBRARY must name the folder of librobot.a by its full path (that is target/staticlib after tests/library/build); it is \"{}\"",
            folder.display()
        );
        exit(1);
    }
    println!("cargo:rerun-if-changed={}", archive.display());
    println!("cargo:rustc-link-search=native={}", folder.display());
    println!("cargo:rustc-link-lib=static=robot");
}
