//! Links the static library of the proved calls; TANGVRAK_LIB names its folder.

fn main() {
    let folder =
        std::env::var("TANGVRAK_LIB").expect("TANGVRAK_LIB names the folder of libheadend.a");
    println!("cargo:rustc-link-search=native={}", folder);
    println!("cargo:rustc-link-lib=static=headend");
    println!("cargo:rerun-if-env-changed=TANGVRAK_LIB");
    println!("cargo:rerun-if-changed={}/libheadend.a", folder);
}
