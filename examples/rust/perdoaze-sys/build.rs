//! Links libperdoaze.a, or libperdoaze.so where PERDOAZE_SHARED is set. It lies in the folder that PERDOAZE_LIB names, as
//! tools/make-c-library or tools/install leaves it.
fn main() {
    println!("cargo:rerun-if-env-changed=PERDOAZE_LIB");
    println!("cargo:rerun-if-env-changed=PERDOAZE_SHARED");
    if let Ok(folder) = std::env::var("PERDOAZE_LIB") {
        println!("cargo:rustc-link-search=native={folder}");
        println!("cargo:rerun-if-changed={folder}/libperdoaze.a");
    }
    let kind = if std::env::var_os("PERDOAZE_SHARED").is_some() { "dylib" } else { "static" };
    println!("cargo:rustc-link-lib={kind}=perdoaze");
}
