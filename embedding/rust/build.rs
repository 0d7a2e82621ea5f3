//! Tells Cargo where the static library is: `SKYDOUBLET_LIB`, or where `embedding/library` leaves it.

use std::env;

fn main() {
    println!("cargo:rerun-if-env-changed=SKYDOUBLET_LIB");
    if env::var_os("CARGO_CFG_SKYDOUBLET_UNLINKED").is_some() {
        return;
    }
    let made = concat!(env!("CARGO_MANIFEST_DIR"), "/../../target/staticlib").to_string();
    let folder = env::var("SKYDOUBLET_LIB").unwrap_or(made);
    println!("cargo:rerun-if-changed={folder}/libskydoublet.a");
    println!("cargo:rustc-link-search=native={folder}");
    println!("cargo:rustc-link-lib=static=skydoublet");
}
