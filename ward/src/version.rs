//! What `ward --version` tells: the release, the commit, and the proved archive that is linked. A dossier names the same.

/// The lines of `ward --version`.
pub fn lines() -> String {
    let (release, commit) = (env!("CARGO_PKG_VERSION"), env!("WARD_COMMIT"));
    format!("ward {release}\ncommit {commit}\narchive {}\n", span::ARCHIVE_SHA256)
}

#[cfg(test)]
mod tests {
    #[test]
    fn the_version_names_release_commit_and_archive() {
        let lines = super::lines();
        let words: Vec<&str> = lines.lines().map(|line| line.rsplit(' ').next().unwrap_or("")).collect();
        assert_eq!(words[0], env!("CARGO_PKG_VERSION"));
        assert!(words[1] == "unknown" || words[1].len() == 40, "{lines}");
        assert!(words[2].len() == 64 && words[2].bytes().all(|byte| byte.is_ascii_hexdigit()), "{lines}");
        assert_eq!(span::version(), span::VERSION);
    }
}
