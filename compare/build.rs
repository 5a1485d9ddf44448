// Links the checker's library, but only with the feature `ours`.
fn main() {
    println!("cargo:rerun-if-env-changed=SCIONWHEEL_EXPORTS");
    println!("cargo:rerun-if-env-changed=SCIONWHEEL_KIND");
    if std::env::var_os("CARGO_FEATURE_OURS").is_some() {
        let place = std::env::var("SCIONWHEEL_EXPORTS").expect("SCIONWHEEL_EXPORTS: the directory of libexports");
        let kind = std::env::var("SCIONWHEEL_KIND").unwrap_or("static".to_string());
        println!("cargo:rustc-link-search=native={place}");
        println!("cargo:rustc-link-lib={kind}=exports");
        println!("cargo:rerun-if-changed={place}");
    }
}
