//! Links the static library: that in the folder that `CMS_CANON_LIB_DIR` names, else that in the crate, else, in the repository of
//! cms-canon, that of its release.

use std::env;
use std::path::{Path, PathBuf};

const IN_CRATE: &str = "lib";
const IN_REPOSITORY: &str = "../../dist";
/// The machines that the library is made for, as cargo names the processor and the system.
const TARGETS: [&str; 2] = ["x86_64-linux", "aarch64-linux"];

fn main() {
    let of_target = |what| env::var(format!("CARGO_CFG_TARGET_{what}")).unwrap_or_default();
    let target = format!("{}-{}", of_target("ARCH"), of_target("OS"));
    let is_usual = of_target("ENDIAN") == "little" && of_target("POINTER_WIDTH") == "64";
    assert!(
        is_usual && TARGETS.contains(&target.as_str()),
        "the library is for Linux on x86-64 and on AArch64, and this is {}",
        env::var("TARGET").unwrap_or_default()
    );
    let folder = folder(&target);
    let library = folder.join("libcms_canon.a");
    assert!(library.is_file(), "there is no {}: CMS_CANON_LIB_DIR names the folder of libcms_canon.a", library.display());
    println!("cargo:rerun-if-env-changed=CMS_CANON_LIB_DIR");
    println!("cargo:rerun-if-changed={}", library.display());
    println!("cargo:rustc-link-search=native={}", folder.display());
    println!("cargo:rustc-link-lib=static=cms_canon");
}

fn folder(target: &str) -> PathBuf {
    let top = Path::new(env!("CARGO_MANIFEST_DIR"));
    let own = top.join(if top.join(IN_CRATE).is_dir() { IN_CRATE } else { IN_REPOSITORY }).join(target);
    env::var_os("CMS_CANON_LIB_DIR").map_or(own, PathBuf::from)
}
