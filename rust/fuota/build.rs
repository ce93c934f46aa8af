//! Links the library for C that `tools/c_library FOLDER` builds: FUOTA_LIBRARY_DIR names the folder by its whole path.
//! FUOTA_LIBRARY_KIND is `static`, as without it, or `dylib`; then the program has to find `libfuota.so` when it runs.

use std::env;
use std::path::Path;

fn main() {
    println!("cargo::rerun-if-changed=build.rs");
    println!("cargo::rerun-if-env-changed=FUOTA_LIBRARY_DIR");
    println!("cargo::rerun-if-env-changed=FUOTA_LIBRARY_KIND");
    if let Err(fault) = link() {
        println!("cargo::error={fault}");
    }
}

/// Tells cargo where the library is, or says why it can't be linked.
fn link() -> Result<(), String> {
    let kind = env::var("FUOTA_LIBRARY_KIND").unwrap_or_else(|_| "static".into());
    let file = match kind.as_str() {
        "static" => "libfuota.a",
        "dylib" => "libfuota.so",
        _ => return Err(format!("FUOTA_LIBRARY_KIND is '{kind}', and neither static nor dylib")),
    };
    let folder = env::var("FUOTA_LIBRARY_DIR").unwrap_or_default();
    if folder.is_empty() {
        return Err(format!(
            "FUOTA_LIBRARY_DIR has to name the folder with {file}, which `tools/c_library FOLDER` makes"
        ));
    }
    let path = Path::new(&folder);
    if !path.is_absolute() {
        return Err(format!(
            "FUOTA_LIBRARY_DIR is '{folder}': give the whole path, since cargo builds in a folder of its own"
        ));
    }
    if !path.join(file).is_file() {
        return Err(format!(
            "there is no {file} in FUOTA_LIBRARY_DIR, '{folder}': `tools/c_library {folder}` makes it"
        ));
    }
    println!("cargo::rerun-if-changed={}", path.join(file).display());
    println!("cargo::rustc-link-search=native={folder}");
    println!("cargo::rustc-link-lib={kind}=fuota");
    Ok(())
}
