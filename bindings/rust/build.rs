//! The folder of libdali_c.a for the target is that of DALI_C_LIB.

fn main() {
    println!("cargo:rerun-if-env-changed=DALI_C_LIB");
    if let Ok(folder) = std::env::var("DALI_C_LIB") {
        println!("cargo:rustc-link-search=native={folder}");
    }
    println!("cargo:rustc-link-lib=static=dali_c");
}
