//! What rsync and rdiff send for the same pair.

use std::fs;
use std::path::{Path, PathBuf};
use std::process::Command;

/// A folder for the files of a pair.
pub struct Folder(PathBuf);

impl Folder {
    pub fn new() -> Folder {
        let folder = std::env::temp_dir().join(format!("rcds-link-{}", std::process::id()));
        fs::create_dir_all(&folder).expect("a folder for the files");
        Folder(folder)
    }
}

impl Drop for Folder {
    fn drop(&mut self) {
        // Files that are left behind there do no harm.
        let _ = fs::remove_dir_all(&self.0);
    }
}

/// What a command prints, or nothing if it is not there or fails.
fn printed(program: &str, arguments: &[&str], folder: &Path) -> Option<String> {
    let output = Command::new(program)
        .args(arguments)
        .current_dir(folder)
        .output()
        .ok()?;
    let text = String::from_utf8(output.stdout).ok()?;
    output.status.success().then_some(text)
}

/// The first line of `PROGRAM --version`.
pub fn version(program: &str) -> Option<String> {
    let text = printed(program, &["--version"], Path::new("."))?;
    text.lines().next().map(str::to_string)
}

/// The number after a label of rsync's statistics.
fn statistic(text: &str, label: &str) -> Option<usize> {
    let line = text.lines().find(|line| line.starts_with(label))?;
    line[label.len()..].trim().parse().ok()
}

/// Bytes that rsync sent and received, between two processes of its own, blocks compared.
pub fn rsync(folder: &Folder, string: &[u8], own: &[u8]) -> Option<usize> {
    let folder = &folder.0;
    fs::write(folder.join("a"), string).ok()?;
    fs::write(folder.join("b"), own).ok()?;
    let arguments = [
        "--no-whole-file",
        "--ignore-times",
        "--stats",
        "--no-human-readable",
        "a",
        "b",
    ];
    let text = printed("rsync", &arguments, folder)?;
    let built = fs::read(folder.join("b")).ok()?;
    assert!(built == string, "rsync built another string");
    Some(statistic(&text, "Total bytes sent:")? + statistic(&text, "Total bytes received:")?)
}

/// Bytes of rdiff's signature and delta.
pub fn rdiff(folder: &Folder, string: &[u8], own: &[u8]) -> Option<usize> {
    let folder = &folder.0;
    fs::write(folder.join("a"), string).ok()?;
    fs::write(folder.join("b"), own).ok()?;
    printed("rdiff", &["--force", "signature", "b", "signature"], folder)?;
    printed(
        "rdiff",
        &["--force", "delta", "signature", "a", "delta"],
        folder,
    )?;
    let length = |name: &str| Some(fs::metadata(folder.join(name)).ok()?.len() as usize);
    Some(length("signature")? + length("delta")?)
}
