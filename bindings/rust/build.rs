// OJEONBUT_ARCHIVE names the folder that holds libojeonbut.a.
fn main() {
    println!("cargo:rerun-if-env-changed=OJEONBUT_ARCHIVE");
    if let Ok(folder) = std::env::var("OJEONBUT_ARCHIVE") {
        println!("cargo:rustc-link-search=native={folder}");
    }
    println!("cargo:rustc-link-lib=static=ojeonbut");
}
