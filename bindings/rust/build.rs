//! Links the static library `libtanczotka_c.a` from the folder that `TANCZOTKA_LIB_DIR` names.

fn main() {
    println!("cargo:rerun-if-env-changed=TANCZOTKA_LIB_DIR");
    println!("cargo:rerun-if-changed=build.rs");
    let Ok(folder) = std::env::var("TANCZOTKA_LIB_DIR") else {
        println!("cargo:warning=TANCZOTKA_LIB_DIR does not name the folder of libtanczotka_c.a");
        return;
    };
    println!("cargo:rerun-if-changed={folder}/libtanczotka_c.a");
    println!("cargo:rustc-link-search=native={folder}");
    println!("cargo:rustc-link-lib=static:-bundle=tanczotka_c");
}
