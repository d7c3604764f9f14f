//! Links the firmware's archive, where the feature `archive` asks for it.

use std::env;
use std::path::{Path, PathBuf};
use std::process::exit;

const NAMED_BY: &str = "FIRMWARE_ARCHIVE";
const MADE_AT: &str = "../target/host/libfirmware.a";

fn main() {
    println!("cargo::rerun-if-changed=build.rs");
    if env::var_os("CARGO_FEATURE_ARCHIVE").is_none() {
        return;
    }
    println!("cargo::rerun-if-env-changed={NAMED_BY}");
    let archive = env::var_os(NAMED_BY).map_or_else(
        || Path::new(env!("CARGO_MANIFEST_DIR")).join(MADE_AT),
        PathBuf::from,
    );
    println!("cargo::rerun-if-changed={}", archive.display());
    if let Err(missing) = link(&archive) {
        println!("cargo::error={missing}");
        exit(1);
    }
}

/// Says where the archive is, under the very name that it has.
fn link(archive: &Path) -> Result<(), String> {
    let whole = archive.canonicalize().ok().filter(|path| path.is_file());
    let Some((folder, name)) = whole
        .as_deref()
        .and_then(|path| path.parent().zip(path.file_name()))
    else {
        return Err(format!(
            "there is no archive at {}: run `tools/hostlib firmware` at the top of the repository, \
             or set {NAMED_BY} to the archive, from the root on",
            archive.display()
        ));
    };
    println!("cargo::rustc-link-search=native={}", folder.display());
    let name = name.to_string_lossy();
    println!("cargo::rustc-link-lib=static:+verbatim={name}");
    Ok(())
}
