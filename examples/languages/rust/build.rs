//! Links the library: that of the folder that BG_RELAY_OUT names, or the one that pkg-config finds.
use std::env::var;
use std::process::Command;

fn main() {
    println!("cargo:rerun-if-env-changed=BG_RELAY_OUT");
    println!("cargo:rerun-if-env-changed=PKG_CONFIG_PATH");
    if let Ok(out) = var("BG_RELAY_OUT") {
        println!("cargo:rerun-if-changed={out}/libbg_relay.a");
        println!("cargo:rustc-link-search=native={out}");
        println!("cargo:rustc-link-lib=static=bg_relay");
        return;
    }
    let said = Command::new("pkg-config").args(["--libs", "bg_relay"]).output();
    let found = said.ok().filter(|said| said.status.success()).and_then(|said| String::from_utf8(said.stdout).ok());
    let words = found.expect("set BG_RELAY_OUT to what tools/build_library wrote to, or PKG_CONFIG_PATH");
    for word in words.split_whitespace() {
        match word.split_at(2) {
            ("-L", folder) => println!("cargo:rustc-link-search=native={folder}"),
            ("-l", name) => println!("cargo:rustc-link-lib={name}"),
            _ => {}
        }
    }
}
