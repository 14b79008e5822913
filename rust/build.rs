//! Where libdesk.a is: in the folder that the environment's `DESK_LIBRARY` names, absolute or from
//! this package's folder, else in the project's `target/native`.

use std::env;
use std::path::Path;
use std::process::ExitCode;

fn main() -> ExitCode {
    println!("cargo:rerun-if-env-changed=DESK_LIBRARY");
    let named = env::var_os("DESK_LIBRARY").unwrap_or_else(|| "../target/native".into());
    let package = env::var_os("CARGO_MANIFEST_DIR").unwrap_or_default();
    let folder = Path::new(&package).join(named);
    let archive = folder.join("libdesk.a");
    println!("cargo:rerun-if-changed={}", archive.display());
    if !archive.is_file() {
        eprintln!(
            "desk: no {}: tools/native writes it, DESK_LIBRARY names its folder",
            archive.display()
        );
        return ExitCode::FAILURE;
    }
    println!("cargo:rustc-link-search=native={}", folder.display());
    println!("cargo:rustc-link-lib=static=desk");
    ExitCode::SUCCESS
}
