//! Compiles shim.c and shim_paths.c over include/codec_payload.h, and links them with the proved library.

use std::env;
use std::path::Path;
use std::process::Command;

fn main() {
    let here = env::var("CARGO_MANIFEST_DIR").unwrap();
    let root = Path::new(&here).join("../..");
    let out = env::var("OUT_DIR").unwrap();
    let run = |words: &[&str]| {
        let ended = Command::new(words[0]).args(&words[1..]).status();
        assert!(ended.is_ok_and(|status| status.success()), "{words:?}");
    };
    let include = format!("-I{}", root.join("include").display());
    let compiler = env::var("CC").unwrap_or_else(|_| "cc".into());
    for name in ["shim", "shim_paths"] {
        let (source, object) = (format!("{name}.c"), format!("{out}/{name}.o"));
        run(&[
            &compiler, "-std=c99", "-O2", &include, "-c", &source, "-o", &object,
        ]);
        run(&["ar", "rcs", &format!("{out}/libtwin_shim.a"), &object]);
    }
    println!("cargo::rustc-link-search=native={out}");
    println!(
        "cargo::rustc-link-search=native={}",
        root.join("c/out").display()
    );
    println!("cargo::rustc-link-lib=static=twin_shim");
    println!("cargo::rustc-link-lib=static=codec_payload");
    for path in [
        "shim.c",
        "shim_paths.c",
        "../../include/codec_payload.h",
        "../../c/out/libcodec_payload.a",
    ] {
        println!("cargo::rerun-if-changed={path}");
    }
}
