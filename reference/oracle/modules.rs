//! For the build scripts of both oracles: modules that compile the original's files.
//!
//! If only a part of a file is needed, its text is extracted to the build folder. The originals are
//! formatted by rustfmt: an item ends at the first line that has its indentation and a closing brace.

use std::{
    env, fs,
    path::{Path, PathBuf},
};

/// Items of `image.rs` that the channel exchange needs.
const CHANNEL_TYPES: [&str; 2] = ["pub enum ImageBuffer {", "pub struct ImageWithRegion {"];
const BUFFER_METHODS: [&str; 2] = ["    pub fn width(", "    pub fn height("];
const IMAGE_METHODS: [&str; 6] = [
    "    pub(crate) fn new(",
    "    pub(crate) fn alloc_tracker(",
    "    pub fn buffer_mut(",
    "    pub fn take_buffer(",
    "    pub fn regions_and_shifts(",
    "    pub fn append_channel(",
];
const EXCHANGE_METHOD: &str = "    pub fn replace_channel(";

/// Where the modules are written, and the files that they compile.
pub struct Modules {
    pub out: PathBuf,
    /// `jxl-render/src`.
    folder: PathBuf,
    /// `filter/epf.rs`, or an altered copy.
    pub epf: PathBuf,
}

impl Modules {
    /// All files unchanged, with their digests checked.
    pub fn checked() -> Self {
        let folder = digests::checked_folder("crates/jxl-render/src");
        Self {
            out: PathBuf::from(env::var("OUT_DIR").unwrap()),
            epf: folder.join("filter/epf.rs"),
            folder,
        }
    }

    pub fn write(&self) {
        let (util, image) = (
            read(&self.folder, "util.rs"),
            read(&self.folder, "image.rs"),
        );
        write(&self.out, "modules.rs", self.whole());
        write(&self.out, "mirror.rs", item(&util, "pub(crate) fn mirror("));
        write(&self.out, "channels.rs", channels(&image));
    }

    /// The files that are compiled whole, under the names that they use for each other.
    fn whole(&self) -> String {
        let (region, epf) = (self.folder.join("region.rs"), &self.epf);
        let filter = self.folder.join("filter");
        let rows = Path::new(env!("CARGO_MANIFEST_DIR")).join("../oracle/src/rows.rs");
        format!(
            "#[path = {region:?}]
            #[allow(clippy::all, warnings)]
            mod region;

            #[path = {filter:?}]
            #[allow(clippy::all, warnings)]
            mod filter {{
                #[path = {epf:?}]
                pub(crate) mod epf;
                pub(crate) mod gabor;
                pub(crate) mod owned;
                #[path = {rows:?}]
                pub(crate) mod rows;
                pub(super) mod impls {{
                    pub(crate) mod generic;
                    pub(super) use super::rows::epf_row_handler;
                    pub(super) use generic::gabor_row_handler;
                }}
            }}"
        )
    }
}

/// The two types of the channel exchange with the methods that it calls.
fn channels(image: &str) -> String {
    let mut text = String::new();
    for start in CHANNEL_TYPES {
        text += "#[derive(Debug)]\n";
        text += &item(image, start);
    }
    text += "impl ImageBuffer {\n";
    for start in BUFFER_METHODS {
        text += &item(image, start);
    }
    text += "}\nimpl ImageWithRegion {\n";
    for start in IMAGE_METHODS {
        text += &item(image, start);
    }
    text += &item(image, EXCHANGE_METHOD);
    text += "}\n";
    text
}

/// The text of the first item that starts so.
fn item(text: &str, start: &str) -> String {
    let indent = &start[..start.len() - start.trim_start().len()];
    let from = text
        .lines()
        .position(|line| line.starts_with(start))
        .unwrap_or_else(|| panic!("no item starts with {start:?}"));
    let mut taken = String::new();
    for line in text.lines().skip(from) {
        taken += line;
        taken.push('\n');
        if line.strip_prefix(indent) == Some("}") {
            return taken;
        }
    }
    panic!("no end of {start:?}");
}

fn read(folder: &Path, name: &str) -> String {
    let file = folder.join(name);
    fs::read_to_string(&file).unwrap_or_else(|error| panic!("{}: {error}", file.display()))
}

fn write(out: &Path, name: &str, text: String) {
    fs::write(out.join(name), text).unwrap();
}
