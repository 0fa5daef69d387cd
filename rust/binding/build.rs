//! Links the static library of the core, for the one target that it is made for.
use std::{env, path::Path, process::exit};

/// The target's architecture, system and pointer width, and how they are said.
const TARGET: [(&str, &str); 3] = [("ARCH", "x86_64"), ("OS", "linux"), ("POINTER_WIDTH", "64")];
const SPOKEN: &str = "x86-64 Linux";

fn refuse(why: &str) -> ! {
    eprintln!("bankcore: {why}");
    exit(1);
}

fn main() {
    println!("cargo:rerun-if-env-changed=BANKCORE_LIB_DIR");
    for (what, value) in TARGET {
        let is = env::var(format!("CARGO_CFG_TARGET_{what}")).unwrap_or_default();
        if is != value {
            let target = env::var("TARGET").unwrap_or_default();
            refuse(&format!(
                "the core's archive is for {SPOKEN}, and {target} is another target. The kit makes \
                 no archive for it; docs/FIRMWARE.md says what a core for another target needs"
            ));
        }
    }
    let folder = env::var("BANKCORE_LIB_DIR").map_or_else(
        |_| {
            let here = env::var("CARGO_MANIFEST_DIR").unwrap();
            let root = Path::new(&here).parent().and_then(Path::parent).unwrap();
            root.join("crates/bankcore/out")
        },
        Into::into,
    );
    let library = folder.join("libbankcore.a");
    println!("cargo:rerun-if-changed={}", library.display());
    if !library.is_file() {
        refuse(&format!(
            "no static library at {}; build it with `rt lib` in crates/bankcore, or name its folder \
             in BANKCORE_LIB_DIR",
            library.display()
        ));
    }
    println!("cargo:rustc-link-lib=static=bankcore");
    println!("cargo:rustc-link-search=native={}", folder.display());
}
