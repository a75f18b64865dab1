//! Tells the linker where the static library lies: the folder that `PAPAYAHELM_LIB_DIR` names, or
//! crates/c_api/out of the repository that this package stands in.

use std::env;
use std::path::{absolute, Path, PathBuf};
use std::process::ExitCode;

const LIBRARY: &str = "libc_api.a";
const VARIABLE: &str = "PAPAYAHELM_LIB_DIR";

fn main() -> ExitCode {
    println!("cargo:rerun-if-env-changed={VARIABLE}");
    if env::var("CARGO_CFG_TARGET_ARCH").is_ok_and(|arch| arch != "x86_64") {
        eprintln!("{LIBRARY} is made for x86-64 alone.");
        return ExitCode::FAILURE;
    }

    let folder = match env::var_os(VARIABLE) {
        Some(folder) => PathBuf::from(folder),
        None => Path::new(env!("CARGO_MANIFEST_DIR")).join("../../crates/c_api/out"),
    };
    let folder = absolute(&folder).unwrap_or(folder);
    let library = folder.join(LIBRARY);
    println!("cargo:rerun-if-changed={}", library.display());
    if !library.is_file() {
        eprintln!("There is no {LIBRARY} in {}.", folder.display());
        eprintln!(
            "Run `rt lib` in crates/c_api of the repository: it writes crates/c_api/out/{LIBRARY}."
        );
        eprintln!("Or name the folder that holds it: {VARIABLE}=FOLDER cargo build");
        return ExitCode::FAILURE;
    }

    println!("cargo:rustc-link-search=native={}", folder.display());
    ExitCode::SUCCESS
}
