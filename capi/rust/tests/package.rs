//! The package as a product takes it in: it links the archive and nothing in its place, whatever a dependency asks for.

use std::fs;
use std::path::{Path, PathBuf};
use std::process::Command;

/// A folder of its own for a test, removed at the test's end.
struct Scratch(PathBuf);

impl Scratch {
    fn new(name: &str) -> Scratch {
        let folder = std::env::temp_dir().join(format!("span-{name}-{}", std::process::id()));
        fs::create_dir_all(&folder).expect("a folder for a test");
        Scratch(folder)
    }

    fn path(&self, name: &str) -> PathBuf {
        self.0.join(name)
    }

    fn file(&self, name: &str, contents: impl AsRef<[u8]>) -> PathBuf {
        fs::create_dir_all(self.path(name).parent().expect("a folder")).expect("its folder");
        fs::write(self.path(name), contents).expect("a file for a test");
        self.path(name)
    }

    /// A product that depends on the package in this folder, with more words for the dependency.
    fn product(&self, name: &str, package: &Path, words: &str) -> PathBuf {
        let dependency = format!("span = {{ path = {:?}{words} }}", package.display().to_string());
        self.file(&format!("{name}/src/main.rs"), "fn main() {}");
        self.file(
            &format!("{name}/Cargo.toml"),
            format!("[package]\nname = \"product\"\nversion = \"0.0.0\"\nedition = \"2021\"\n\n[dependencies]\n{dependency}\n"),
        )
    }
}

impl Drop for Scratch {
    fn drop(&mut self) {
        let _ = fs::remove_dir_all(&self.0);
    }
}

/// The package's own folder, in which cargo runs tests.
fn package() -> PathBuf {
    std::env::current_dir().expect("the package's folder")
}

/// A command's output and its messages, and whether it ended well.
fn ran(command: &mut Command) -> (bool, String, String) {
    let output = command.output().unwrap_or_else(|error| panic!("{command:?}: {error}"));
    let text = |bytes: &[u8]| String::from_utf8_lossy(bytes).into_owned();
    (output.status.success(), text(&output.stdout), text(&output.stderr))
}

fn cargo(word: &str, manifest: &Path) -> Command {
    let mut command = Command::new("cargo");
    command.args([word, "--offline", "--manifest-path"]).arg(manifest);
    command.env_remove("SPAN_ARCHIVE_FOLDER").env_remove("CARGO_TARGET_DIR");
    command
}

fn metadata(manifest: &Path) -> Command {
    let mut command = cargo("metadata", manifest);
    command.args(["--format-version", "1"]);
    command
}

/// No dependency, not even an optional one, and no feature.
#[test]
fn the_package_has_nothing_to_switch() {
    let (good, metadata, errors) = ran(metadata(&package().join("Cargo.toml")).arg("--no-deps"));
    assert!(good, "{errors}");
    // The whole workspace is told, a package from its name to its manifest.
    let own = metadata.split("{\"name\":\"span\",\"version\":").nth(1).expect("the package itself");
    let own = own.split("\"manifest_path\":").next().expect("its words");
    assert!(own.contains("\"dependencies\":[]") && own.contains("\"features\":{}"), "{own}");
}

/// The manifest has the workspace's version and edition. It does not inherit them, so that it can be copied.
#[test]
fn the_version_is_the_workspaces() {
    let read = |path: &str| fs::read_to_string(package().join(path)).expect("a manifest");
    let (own, workspace) = (read("Cargo.toml"), read("../../Cargo.toml"));
    for word in ["version = ", "edition = "] {
        let line = |manifest: &str| manifest.lines().find(|line| line.starts_with(word)).map(String::from);
        assert!(line(&own).is_some() && line(&own) == line(&workspace), "{own}{workspace}");
    }
}

/// A copy of the package, in no workspace, serves a product.
#[test]
fn a_copy_is_a_package() {
    let scratch = Scratch::new("copied");
    let copy = scratch.path("span");
    fs::create_dir_all(&copy).expect("a folder for a copy");
    let parts = ["Cargo.toml", "build.rs", "src"].map(|part| package().join(part));
    let (good, _, errors) = ran(Command::new("cp").arg("-r").args(parts).arg(&copy));
    assert!(good, "{errors}");
    let product = scratch.product("product", &copy, "");
    let solve = "println!(\"{}\", span::solve(&[], &mut [0; span::ANSWER_SIZE]).unwrap())";
    scratch.file("product/src/main.rs", format!("fn main() {{ {solve} }}"));
    let mut run = cargo("run", &product);
    run.arg("--quiet").arg("--target-dir").arg(scratch.path("target"));
    let (good, output, errors) = ran(run.env("SPAN_ARCHIVE_FOLDER", archive().parent().expect("its folder")));
    assert!(good && output == "least 0\n", "{output}{errors}");
}

/// A product that asks for the unproved engine is refused before anything is built.
#[test]
fn no_product_is_switched_to_the_unproved_engine() {
    let scratch = Scratch::new("switched");
    let plain = scratch.product("plain", &package(), "");
    let (good, _, errors) = ran(&mut metadata(&plain));
    assert!(good, "{errors}");
    let switched = scratch.product("switched", &package(), ", features = [\"stand-in\"]");
    let (good, _, errors) = ran(&mut metadata(&switched));
    assert!(!good && errors.contains("stand-in"), "{errors}");
}

/// A command of cargo on the package in a folder of its own, where the archive is not there.
fn without_archive(word: &str, scratch: &Scratch) -> Command {
    let mut command = cargo(word, &package().join("Cargo.toml"));
    command.arg("--target-dir").arg(scratch.path("target")).env("SPAN_ARCHIVE_FOLDER", scratch.path("none"));
    command
}

/// Without the archive the build fails, and says how the archive is made and nothing else.
#[test]
fn the_build_error_knows_the_archive_alone() {
    let scratch = Scratch::new("missing");
    let (good, _, errors) = ran(without_archive("build", &scratch).arg("--quiet"));
    assert!(!good, "{errors}");
    let message = errors.split("error: there is no").nth(1).expect("the package's own message");
    assert!(message.contains("libcapi.a") && message.contains("`tools/build archive`"), "{message}");
    for word in ["stand-in", "unproved", "feature"] {
        assert!(!message.contains(word), "{message}");
    }
}

/// The documentation needs no archive, and has no warning.
#[test]
fn the_documentation_builds_without_the_archive() {
    let scratch = Scratch::new("documented");
    let (good, _, errors) = ran(without_archive("doc", &scratch).env("RUSTDOCFLAGS", "-D warnings"));
    assert!(good, "{errors}");
    assert!(scratch.path("target/doc/span/struct.Problem.html").exists(), "{errors}");
}

/// A product that uses a copy of the package, with an archive in this folder.
fn copied(scratch: &Scratch) -> PathBuf {
    let copy = scratch.path("share/span/rust");
    fs::create_dir_all(&copy).expect("a folder for a copy");
    let parts = ["Cargo.toml", "build.rs", "src"].map(|part| package().join(part));
    let (good, _, errors) = ran(Command::new("cp").arg("-r").args(parts).arg(&copy));
    assert!(good, "{errors}");
    let product = scratch.product("product", &copy, "");
    scratch
        .file("product/src/main.rs", "fn main() { println!(\"{} {}\", span::version(), span::ARCHIVE_SHA256.len()) }");
    product
}

fn archive() -> PathBuf {
    let folder = std::env::var_os("SPAN_ARCHIVE_FOLDER").unwrap_or("../../crates/capi/out".into());
    package().join(folder).join("libcapi.a")
}

/// The package finds the library of the prefix below which it was installed.
#[test]
fn an_installed_package_links_its_prefix() {
    let scratch = Scratch::new("prefix");
    let product = copied(&scratch);
    scratch.file("lib/libspan.a", fs::read(archive()).expect("the archive"));
    let mut run = cargo("run", &product);
    let (good, output, errors) = ran(run.arg("--quiet").arg("--target-dir").arg(scratch.path("target")));
    assert!(good && output == "40200 64\n", "{output}{errors}");
}

/// An archive of another release is refused, and the message says so.
#[test]
fn an_archive_of_another_release_is_refused() {
    let scratch = Scratch::new("release");
    let product = copied(&scratch);
    let mut bytes = fs::read(archive()).expect("the archive");
    let name = b"span_release_4_2";
    let places: Vec<usize> = (0..bytes.len() - name.len()).filter(|&at| bytes[at..].starts_with(name)).collect();
    places.iter().for_each(|&at| bytes[at + name.len() - 1] = b'1');
    scratch.file("lib/libspan.a", bytes);
    let mut build = cargo("build", &product);
    let (good, _, errors) = ran(build.arg("--quiet").arg("--target-dir").arg(scratch.path("target")));
    assert!(!good && errors.contains("is of another release"), "{errors}");
}
