//! Builds the calls of FLINT where its headers and library are installed, and
//! then sets the cfg `flint`. With the variable NO_FLINT set, it is left out.

use std::env;
use std::path::Path;
use std::process::{Command, Stdio};

fn main() {
    println!("cargo:rustc-check-cfg=cfg(flint)");
    println!("cargo:rerun-if-changed=build.rs");
    println!("cargo:rerun-if-changed=src/flint.c");
    println!("cargo:rerun-if-env-changed=NO_FLINT");
    let folder = env::var("OUT_DIR").expect("cargo sets OUT_DIR");
    if env::var_os("NO_FLINT").is_none() && built(Path::new(&folder)) {
        println!("cargo:rustc-cfg=flint");
        println!("cargo:rustc-link-search=native={folder}");
        println!("cargo:rustc-link-lib=static=bench_flint");
        println!("cargo:rustc-link-lib=dylib=flint");
    }
}

/// Whether the calls are built and the library is there to be linked.
fn built(folder: &Path) -> bool {
    let object = folder.join("flint.o");
    let archive = folder.join("libbench_flint.a");
    let program = folder.join("flint_program");
    let main = folder.join("flint_program.c");
    std::fs::write(
        &main,
        "void flint_cleanup(void); int main(void) { flint_cleanup(); return 0; }\n",
    )
    .is_ok()
        && runs(
            Command::new("gcc")
                .args(["-O2", "-c", "src/flint.c", "-o"])
                .arg(&object),
        )
        && runs(Command::new("gcc").arg(&main).args(["-lflint", "-o"]).arg(&program))
        && runs(Command::new("ar").arg("crs").arg(&archive).arg(&object))
}

fn runs(command: &mut Command) -> bool {
    command
        .stderr(Stdio::null())
        .status()
        .is_ok_and(|status| status.success())
}
