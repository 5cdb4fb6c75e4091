//! Links the proved archive, and the hand-written C under names of its own so that both live in one program.

use std::env;
use std::path::Path;
use std::process::Command;

const CALLS: [&str; 8] = ["open", "start_put", "start_get", "start_sweep", "step", "look", "inspect", "standing"];
const SIZES: [&str; 5] = ["version", "state_words", "tally_words", "node_words", "reading_words"];

fn main() {
    let archive = env::var("TRAY_ARCHIVE").unwrap_or_else(|_| "../../target/staticlib".into());
    println!("cargo:rerun-if-env-changed=TRAY_ARCHIVE");
    println!("cargo:rerun-if-changed={archive}/libembed.a");
    assert!(
        Path::new(&archive).join("libembed.a").exists(),
        "no libembed.a in {archive}: tools/archive, or TRAY_ARCHIVE"
    );

    let object = format!("{}/tray_store.o", env::var("OUT_DIR").unwrap());
    let compiler = env::var("CC").unwrap_or_else(|_| "cc".into());
    println!("cargo:rerun-if-env-changed=CC");
    println!("cargo:rerun-if-changed=c/tray_store.c");
    println!("cargo:rerun-if-changed=../../include/tray_store.h");
    let renamed = CALLS.iter().chain(&SIZES).map(|name| format!("-Dtray_{name}=c_tray_{name}"));
    let status = Command::new(&compiler)
        .args([
            "-O3",
            "-gdwarf-4",
            "-std=c11",
            "-Wall",
            "-Wextra",
            "-I../../include",
            "-c",
            "c/tray_store.c",
            "-o",
            &object,
        ])
        .args(renamed)
        .status();
    assert!(status.is_ok_and(|status| status.success()), "{compiler} failed on c/tray_store.c");

    println!("cargo:rustc-link-arg={object}");
    println!("cargo:rustc-link-search=native={archive}");
    println!("cargo:rustc-link-lib=static=embed");
}
