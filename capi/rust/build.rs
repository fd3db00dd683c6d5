//! Links the archive that `tools/build archive` writes, or that was installed, and nothing in its place. SPAN_ARCHIVE_FOLDER names its folder; else it is
//! looked for in the repository, then in the prefix below which this package was installed, then by pkg-config. Without it only the documentation can be made.

use std::env;
use std::fs;
use std::path::{Path, PathBuf};
use std::process::Command;

/// The archive by its name in the repository, and where it is installed.
const NAMES: [&str; 2] = ["libcapi.a", "libspan.a"];

/// The symbol that archives of this release have.
const RELEASE: &[u8] = b"span_release_4_2";

fn main() {
    println!("cargo:rerun-if-env-changed=SPAN_ARCHIVE_FOLDER");
    println!("cargo:rerun-if-changed=build.rs");
    println!("cargo:rustc-check-cfg=cfg(no_archive)");
    println!("cargo:rustc-check-cfg=cfg(other_archive)");
    let folders = folders();
    let found = folders.iter().flat_map(|folder| NAMES.map(|name| folder.join(name))).find(|path| path.exists());
    let archive = found.unwrap_or_else(|| folders[0].join(NAMES[0]));
    println!("cargo:rerun-if-changed={}", archive.display());
    println!("cargo:rustc-env=SPAN_ARCHIVE={}", archive.display());
    match fs::read(&archive) {
        Ok(bytes) => link(&archive, &bytes),
        // lib.rs stops the compiler, but not rustdoc.
        Err(_) => println!("cargo:rustc-cfg=no_archive"),
    }
}

/// Where the archive may be, in this order.
fn folders() -> Vec<PathBuf> {
    if let Some(folder) = env::var_os("SPAN_ARCHIVE_FOLDER") {
        return vec![folder.into()];
    }
    let here = PathBuf::from(env::var_os("CARGO_MANIFEST_DIR").expect("cargo names the package's folder"));
    let beside =
        ["../../crates/capi/out", "../../../lib", "../../../lib/x86_64-linux-gnu"].map(|place| here.join(place));
    let mut asked = Command::new("pkg-config");
    let told = asked.args(["--variable=libdir", "span"]).output().ok().filter(|output| output.status.success());
    let folder = told.map(|output| PathBuf::from(String::from_utf8_lossy(&output.stdout).trim()));
    beside.into_iter().chain(folder).collect()
}

/// Links an archive of this release.
fn link(archive: &Path, bytes: &[u8]) {
    if !bytes.windows(RELEASE.len()).any(|part| part == RELEASE) {
        println!("cargo:rustc-cfg=other_archive");
    }
    let sum: String = sha256(bytes).iter().map(|word| format!("{word:08x}")).collect();
    let name = archive.file_stem().and_then(|stem| stem.to_str()).and_then(|stem| stem.strip_prefix("lib"));
    println!("cargo:rustc-env=SPAN_ARCHIVE_SHA256={sum}");
    println!("cargo:sha256={sum}");
    println!("cargo:rustc-link-search=native={}", archive.parent().expect("a file is in a folder").display());
    println!("cargo:rustc-link-lib=static={}", name.expect("one of the names above"));
}

/// The first 32 bits behind the point of the square or cube roots of the first primes, by whole numbers alone.
fn roots<const COUNT: usize>(cube: bool) -> [u32; COUNT] {
    let mut primes = (2u128..).filter(|number| (2..*number).all(|divisor| number % divisor != 0));
    [(); COUNT].map(|()| {
        let prime = primes.next().expect("there is always another prime");
        let scaled = if cube { prime << 96 } else { prime << 64 };
        let power = |root: u128| if cube { root * root * root } else { root * root };
        let mut root = 0u128;
        for bit in (0..37).rev() {
            if power(root | 1 << bit) <= scaled {
                root |= 1 << bit;
            }
        }
        root as u32
    })
}

/// SHA-256 (FIPS 180-4), so that the package needs no other.
fn sha256(bytes: &[u8]) -> [u32; 8] {
    let (keys, mut state) = (roots::<64>(true), roots::<8>(false));
    let mut padded = bytes.to_vec();
    padded.push(0x80);
    padded.resize((padded.len() + 8).next_multiple_of(64) - 8, 0);
    padded.extend((bytes.len() as u64 * 8).to_be_bytes());
    for block in padded.chunks_exact(64) {
        let mut words: Vec<u32> =
            block.chunks_exact(4).map(|word| u32::from_be_bytes([word[0], word[1], word[2], word[3]])).collect();
        for at in 16..64 {
            let (near, far) = (words[at - 2], words[at - 15]);
            let low = far.rotate_right(7) ^ far.rotate_right(18) ^ (far >> 3);
            let high = near.rotate_right(17) ^ near.rotate_right(19) ^ (near >> 10);
            words.push(words[at - 16].wrapping_add(low).wrapping_add(words[at - 7]).wrapping_add(high));
        }
        let mut turned = state;
        for (key, word) in keys.iter().zip(&words) {
            let [a, b, c, d, e, f, g, h] = turned;
            let chosen = (e & f) ^ (!e & g);
            let most = (a & b) ^ (a & c) ^ (b & c);
            let first = h
                .wrapping_add(e.rotate_right(6) ^ e.rotate_right(11) ^ e.rotate_right(25))
                .wrapping_add(chosen)
                .wrapping_add(*key)
                .wrapping_add(*word);
            let second = (a.rotate_right(2) ^ a.rotate_right(13) ^ a.rotate_right(22)).wrapping_add(most);
            turned = [first.wrapping_add(second), a, b, c, d.wrapping_add(first), e, f, g];
        }
        state.iter_mut().zip(turned).for_each(|(word, turn)| *word = word.wrapping_add(turn));
    }
    state
}
