// Links libqoi.a, the proved functions: from the folder that the environment variable PIVOTSHADE_ARCHIVE names; where it is not set, from the
// repository's target/, to which the repository's own commands write it where it is missing.
use std::env::{self, consts::ARCH};
use std::path::{Path, PathBuf};
use std::process::Command;

const VARIABLE: &str = "PIVOTSHADE_ARCHIVE";
const ARCHIVE: &str = "libqoi.a";

fn main() {
    println!("cargo:rerun-if-env-changed={VARIABLE}");
    println!("cargo:rerun-if-changed=build.rs");
    let folder = match env::var_os(VARIABLE) {
        Some(folder) => named(Path::new(&folder)),
        None => of_the_repository(),
    };
    println!("cargo:rerun-if-changed={}", folder.join(ARCHIVE).display());
    println!("cargo:rustc-link-search=native={}", folder.display());
    println!("cargo:rustc-link-lib=static=qoi");
}

/// The folder that the variable names: a relative name would mean another folder to the linker.
fn named(folder: &Path) -> PathBuf {
    let shown = folder.display();
    if folder.is_relative() {
        panic!("{VARIABLE} must name a folder from the root on, and is {shown}");
    }
    if !folder.join(ARCHIVE).is_file() {
        panic!("{VARIABLE} names {shown}, where there is no {ARCHIVE}");
    }
    folder.to_path_buf()
}

/// The repository's own, for the processor that is built for.
fn of_the_repository() -> PathBuf {
    let set = |variable| env::var(variable).expect("cargo sets it");
    let (processor, system) = (set("CARGO_CFG_TARGET_ARCH"), set("CARGO_CFG_TARGET_OS"));
    let (folder, command) = match (processor.as_str(), system.as_str()) {
        ("x86_64", "linux") => ("target/staticlib", "tools/native-archive x86_64"),
        // ARCH is the machine's that builds
        ("aarch64", "linux") if ARCH == "aarch64" => ("target/native", "tools/native-archive"),
        ("aarch64", "linux") => ("target/aarch64", "tools/native-archive aarch64"),
        _ => panic!(
            "the repository compiles for Linux on x86-64 and Arm; for {system} on {processor} name in {VARIABLE} \
             the folder of a {ARCHIVE} that was compiled for it"
        ),
    };
    let root = Path::new(&set("CARGO_MANIFEST_DIR")).join("..");
    let folder = root.join(folder);
    if !folder.join(ARCHIVE).is_file() {
        prove(&root, command);
    }
    folder
}

/// Proves the codec and compiles it: seconds to minutes.
fn prove(root: &Path, command: &str) {
    let ran = Command::new("sh")
        .args(["-c", command])
        .current_dir(root)
        .output()
        .expect("sh starts");
    if !ran.status.success() {
        panic!(
            "`{command}` wrote no {ARCHIVE}. It wants the Rattle kit's command rt on the path; {VARIABLE} can name \
             the folder of an archive that was compiled elsewhere. It said:\n{}{}",
            String::from_utf8_lossy(&ran.stdout),
            String::from_utf8_lossy(&ran.stderr)
        );
    }
}
