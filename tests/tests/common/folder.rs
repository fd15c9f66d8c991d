//! A folder for one test's own files.

use std::fs::{create_dir_all, remove_dir_all, write};
use std::path::PathBuf;

/// Removed at the test's end.
pub struct Folder(pub PathBuf);

impl Folder {
    pub fn new(name: &str) -> Folder {
        let folder = format!("trusted-block-{}-{name}", std::process::id());
        let folder = std::env::temp_dir().join(folder);
        create_dir_all(&folder).expect("a folder can be made");
        Folder(folder)
    }

    /// Writes a file, with the folders that it stands in; gives its path.
    pub fn file(&self, name: &str, bytes: &[u8]) -> String {
        let file = self.0.join(name);
        create_dir_all(file.parent().expect("a folder")).expect("a folder can be made");
        write(&file, bytes).expect("a file can be written");
        file.into_os_string().into_string().expect("plain")
    }
}

impl Drop for Folder {
    fn drop(&mut self) {
        let _ = remove_dir_all(&self.0);
    }
}
