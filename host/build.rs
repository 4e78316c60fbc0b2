// Links libqoi.a, the port's archive, from the folder that the environment variable PIVOTSHADE_ARCHIVE names; and with the feature `qoi_h`
// libqoi_h.a, which ./bench makes of qoi_h.c, from the folder that PIVOTSHADE_QOI_H names.
fn link(variable: &str, library: &str) {
    let folder = std::env::var(variable)
        .unwrap_or_else(|_| panic!("{variable} names the folder of lib{library}.a"));
    println!("cargo:rustc-link-search=native={folder}");
    println!("cargo:rustc-link-lib=static={library}");
    println!("cargo:rerun-if-changed={folder}/lib{library}.a");
    println!("cargo:rerun-if-env-changed={variable}");
}

fn main() {
    link("PIVOTSHADE_ARCHIVE", "qoi");
    if std::env::var_os("CARGO_FEATURE_QOI_H").is_some() {
        link("PIVOTSHADE_QOI_H", "qoi_h");
    }
}
