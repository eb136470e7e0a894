//! Links the proved library. GUINEATWIRL_LIBRARY names the folder of its archive.

use std::path::Path;

fn main() {
    println!("cargo::rerun-if-env-changed=GUINEATWIRL_LIBRARY");
    let Ok(folder) = std::env::var("GUINEATWIRL_LIBRARY") else {
        return fail("GUINEATWIRL_LIBRARY does not name the folder of libguineatwirl.a");
    };
    if !Path::new(&folder).is_absolute() {
        return fail(&format!(
            "GUINEATWIRL_LIBRARY is '{folder}': it needs the folder's full path"
        ));
    }
    let archive = format!("{folder}/libguineatwirl.a");
    println!("cargo::rerun-if-changed={archive}");
    if !Path::new(&archive).is_file() {
        return fail(&format!("GUINEATWIRL_LIBRARY names a folder without the archive: {archive}"));
    }
    println!("cargo::rustc-link-search=native={folder}");
    println!("cargo::rustc-link-lib=static=guineatwirl");
}

fn fail(what: &str) {
    println!(
        "cargo::error={what}: run tools/host_library of Guineatwirl, which builds the archive, \
         and set GUINEATWIRL_LIBRARY to the full path of its folder target/host"
    );
}
