//! pixelforge's editor, of which these files are built as they stand: document.rs, op.rs, history.rs, palette.rs,
//! selection.rs and tools.rs, and tiles.rs beside it.
//!
//! What else they name stands here: the types with the fields that they read, and functions that no timed or compared
//! call reaches. `bench/run` and `compare/run` link the folder of pixelforge's src to target/pixelforge, and name the
//! build of color.rs that is meant.

#![allow(dead_code)]

extern crate self as png;
extern crate self as sha2;

pub extern crate color;

use std::fmt;

/// An error of any module: a text.
#[derive(Clone, Debug, PartialEq, Eq)]
pub struct Told(pub String);

impl fmt::Display for Told {
    fn fmt(&self, f: &mut fmt::Formatter) -> fmt::Result {
        f.write_str(&self.0)
    }
}

fn out_of_reach() -> ! {
    unreachable!("no call of the driver comes here")
}

#[path = "../target/pixelforge/tiles.rs"]
pub mod tiles;

#[path = "../target/pixelforge/editor"]
pub mod editor {
    pub mod document;
    pub mod history;
    pub mod op;
    pub mod palette;
    pub mod selection;
    pub mod tools;

    pub use crate::Told as EditError;
    pub use document::{Document, Origin, SourceRef};
    pub use history::History;
    pub use log::EditLog;
    pub use op::{Op, PixelChange};
    pub use selection::Selection;

    pub(crate) fn err<T>(told: impl Into<String>) -> Result<T, EditError> {
        Err(EditError(told.into()))
    }

    pub mod log {
        use super::{Document, EditError, Op};
        use std::path::Path;

        pub const EDITS_SUFFIX: &str = "";

        pub struct EditLog {
            pub width: usize,
            pub height: usize,
            pub palette_len: usize,
            pub ops: Vec<Op>,
        }

        impl EditLog {
            pub fn of(_: &Document, _: &[Op]) -> EditLog {
                crate::out_of_reach()
            }

            pub fn read(_: &Path) -> Result<EditLog, EditError> {
                crate::out_of_reach()
            }

            pub fn sha256(&self) -> String {
                crate::out_of_reach()
            }
        }
    }

    pub mod save {
        use super::{Document, EditError};
        use crate::pipeline::IndexImage;

        pub fn rerender(_: &Document) -> Result<Option<((), IndexImage)>, EditError> {
            crate::out_of_reach()
        }
    }
}

pub mod config {
    use crate::Told;

    /// No palette by name, so that a document takes any colour.
    #[derive(Clone, Debug, Default)]
    pub struct Config {
        pub remove_bg: bool,
        pub transparent_index: String,
        pub alpha_threshold: i64,
        pub palette_name: Option<String>,
        pub palette_size: i64,
        pub tileset: bool,
        pub tile_size: i64,
        pub tile_dedupe_tolerance: f64,
        pub tileset_columns: i64,
    }

    pub enum Value {
        Int(i64),
        Text(String),
    }

    impl Value {
        pub fn repr(&self) -> String {
            crate::out_of_reach()
        }
    }

    impl Config {
        pub fn new(_: &[(String, Value)]) -> Result<Config, Told> {
            crate::out_of_reach()
        }

        pub fn palette_hex_lines(&self) -> Result<Option<Vec<String>>, Told> {
            Ok(None)
        }

        pub fn seed_palette_hex_lines(&self, _: Vec<String>) {
            crate::out_of_reach()
        }

        pub fn hash(&self) -> Result<String, Told> {
            crate::out_of_reach()
        }
    }
}

pub mod io {
    use crate::Told;
    use std::path::Path;

    pub const MAX_INPUT_PIXELS: u64 = 0;
    pub const META_CONFIG_KEY: &str = "";
    pub const META_PALETTE_KEY: &str = "";
    pub const META_INPUT_KEY: &str = "";
    pub const META_EDITS_KEY: &str = "";

    pub struct Image {
        pub rgba: Vec<u8>,
        pub h: usize,
        pub w: usize,
    }

    pub struct Loaded {
        pub rgb: Vec<u8>,
        pub alpha: Vec<u8>,
        pub h: usize,
        pub w: usize,
    }

    pub fn read_regular(_: &Path) -> Result<Vec<u8>, Told> {
        crate::out_of_reach()
    }

    pub fn decode_bytes(_: &str, _: &[u8], _: u64) -> Result<Image, Told> {
        crate::out_of_reach()
    }

    pub fn load(_: &Path, _: u64) -> Result<Loaded, Told> {
        crate::out_of_reach()
    }

    pub fn check_budget(_: &str, _: u64, _: u64, _: u64) -> Result<(), Told> {
        crate::out_of_reach()
    }

    pub fn read_png_text(_: &Path) -> Result<Vec<(String, String)>, Told> {
        crate::out_of_reach()
    }

    pub fn indices_to_rgba(_: &[i64], _: &[[u8; 3]]) -> Result<Vec<u8>, Told> {
        crate::out_of_reach()
    }
}

pub mod npsum {
    /// Of near-duplicate tiles alone, which tolerance 0 never looks for.
    pub fn pairwise_sum(_: &[f64]) -> f64 {
        crate::out_of_reach()
    }
}

pub mod pipeline {
    use crate::config::Config;
    use crate::editor::SourceRef;
    use crate::io::Loaded;
    use crate::preprocess::Preprocessed;
    use crate::pyjson::Json;

    #[derive(Clone, Debug, PartialEq)]
    pub struct IndexImage {
        pub indices: Vec<i64>,
        pub h: usize,
        pub w: usize,
    }

    pub struct Output {
        pub config: Config,
        pub input_sha256: String,
        pub stats: Json,
        pub indices: IndexImage,
        pub palette: Vec<[u8; 3]>,
        pub palette_lab: Vec<f64>,
    }

    pub fn source_reference_factor(_: &Preprocessed, _: usize) -> usize {
        crate::out_of_reach()
    }

    pub fn source_reference(_: &Loaded, _: &Preprocessed, _: usize) -> SourceRef {
        crate::out_of_reach()
    }
}

pub mod preprocess {
    use crate::config::Config;
    use crate::Told;

    pub struct Geometry {
        pub out_width: i64,
        pub out_height: i64,
    }

    pub struct Preprocessed {
        pub geometry: Geometry,
    }

    pub fn run(
        _: &[u8],
        _: &[u8],
        _: usize,
        _: usize,
        _: &Config,
    ) -> Result<Preprocessed, Told> {
        crate::out_of_reach()
    }
}

pub mod pyjson {
    #[derive(Clone, Debug)]
    pub enum Json {
        Null,
        Bool(bool),
        Int(i64),
        Float(f64),
        Str(String),
        List(Vec<Json>),
        Object(Vec<(String, Json)>),
    }

    pub mod loads {
        use crate::config::Value;

        pub enum Json {
            Null,
            Bool(bool),
            Int(Value),
            Float(f64),
            Str(String),
            List(Vec<Json>),
            Object(Vec<(String, Json)>),
        }

        impl Json {
            pub fn to_value(&self) -> Value {
                crate::out_of_reach()
            }
        }

        pub enum JsonError {
            Value(String),
            Recursion(String),
        }

        pub fn loads(_: &str) -> Result<Json, JsonError> {
            crate::out_of_reach()
        }
    }
}

// What document.rs names of the crates `sha2` and `png`.

pub trait Digest {
    fn digest(_: &[u8]) -> Self;
}

pub struct Sha256;

impl Digest for Sha256 {
    fn digest(_: &[u8]) -> Sha256 {
        out_of_reach()
    }
}

impl fmt::LowerHex for Sha256 {
    fn fmt(&self, _: &mut fmt::Formatter) -> fmt::Result {
        out_of_reach()
    }
}

pub struct Limits {
    pub bytes: usize,
}

pub struct Transformations;

impl Transformations {
    pub const IDENTITY: Transformations = Transformations;
}

#[derive(PartialEq)]
pub enum ColorType {
    Indexed,
    Rgb,
}

pub struct Header {
    pub color_type: ColorType,
    pub width: u32,
    pub height: u32,
}

pub struct Info {
    pub bit_depth: u8,
    pub palette: Option<Vec<u8>>,
    pub trns: Option<Vec<u8>>,
}

pub struct Frame {
    pub line_size: usize,
}

pub struct Decoder;

impl Decoder {
    pub fn new_with_limits(_: std::io::Cursor<&[u8]>, _: Limits) -> Decoder {
        out_of_reach()
    }

    pub fn set_transformations(&mut self, _: Transformations) {
        out_of_reach()
    }

    pub fn read_header_info(&mut self) -> Result<Header, Told> {
        out_of_reach()
    }

    pub fn read_info(self) -> Result<Reader, Told> {
        out_of_reach()
    }
}

pub struct Reader;

impl Reader {
    pub fn output_buffer_size(&self) -> Option<usize> {
        out_of_reach()
    }

    pub fn next_frame(&mut self, _: &mut [u8]) -> Result<Frame, Told> {
        out_of_reach()
    }

    pub fn info(&self) -> Info {
        out_of_reach()
    }
}
