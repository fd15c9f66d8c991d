//! Writes the files of samples/: each token, and its listing beside it.

use std::fs::write;
use std::path::Path;
use trusted_block_tests::listing::listing;
use trusted_block_tests::sample_files::samples;

fn main() -> std::io::Result<()> {
    let folder = Path::new(env!("CARGO_MANIFEST_DIR")).join("../samples");
    for sample in samples() {
        let file = folder.join(sample.name);
        write(file.with_extension("listing"), listing(&sample.token))?;
        write(file.with_extension("token"), sample.token)?;
    }
    Ok(())
}
