//! Where libsca.a is: the folder SCA_LIB_DIR, or the repository's own.

fn main() {
    println!("cargo:rerun-if-env-changed=SCA_LIB_DIR");
    let own = concat!(env!("CARGO_MANIFEST_DIR"), "/../target/staticlib");
    let folder = std::env::var("SCA_LIB_DIR").unwrap_or_else(|_| own.to_string());
    println!("cargo:rustc-link-search=native={}", folder);
}
