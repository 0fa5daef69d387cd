//! Runs rust/lift and passes its folder to the compiler.
use std::{env, fs, path::Path, process::Command};

fn main() {
    let root = Path::new(&env::var("CARGO_MANIFEST_DIR").unwrap()).parent().unwrap().to_path_buf();
    let script = root.join("lift");
    let out = root.join("target/lifted");
    println!("cargo:rerun-if-changed={}", script.display());
    println!("cargo:rerun-if-env-changed=TIMETABLE_SRC");
    let source = env::var("TIMETABLE_SRC").map_or_else(
        |_| root.parent().unwrap().parent().unwrap().join("shared/docs/src"),
        Into::into,
    );
    println!("cargo:rerun-if-changed={}", source.display());

    match Command::new("python3").arg(&script).arg("--out").arg(&out).output() {
        Ok(run) if run.status.success() => {}
        Ok(run) => {
            let earlier = run.status.code() == Some(3)
                && fs::read(out.join("done")).is_ok_and(|d| d == fs::read(&script).unwrap());
            let text = String::from_utf8_lossy(&run.stderr);
            if !earlier {
                eprint!("{text}");
                std::process::exit(1);
            }
            println!("cargo:warning={}; using what was lifted earlier", text.trim());
        }
        Err(error) => {
            eprintln!("rust/lift needs python3: {error}");
            std::process::exit(1);
        }
    }
    println!("cargo:rustc-env=LIFTED={}", out.display());
    println!("cargo:rustc-check-cfg=cfg(tables)");
    println!("cargo:folder={}", out.display());
}
