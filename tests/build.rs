// The archive is linked by bindings/rust.
fn main() {
    println!("cargo:rerun-if-changed=build.rs");
    if std::env::var_os("CARGO_FEATURE_STANDIN").is_some() {
        println!("cargo:warning=feature standin: the archive is NOT tested");
    }
}
