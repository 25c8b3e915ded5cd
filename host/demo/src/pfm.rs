//! The portable float map: `PF` or `Pf`, sides, a scale whose sign is the byte order, and three samples
//! per pixel or one, row after row from the bottom. Errors are texts without the file's name.

use restoration::{GREY_PLANES, PLANES, Region};

use crate::{
    error::quoted,
    number,
    picture::{Picture, at_corner},
};

/// The first word, by the number of planes.
const MAGICS: [(u32, &[u8]); 2] = [(PLANES, b"PF"), (GREY_PLANES, b"Pf")];
const SAMPLE: usize = size_of::<f32>();
/// Most bytes of a word in the header.
const LONGEST_WORD: usize = 64;

const HEADER_ENDS: &str = "ends inside its header";

/// A file with a parsed header; its samples are neither counted nor reordered.
pub struct Pfm {
    pub region: Region,
    planes: u32,
    scale: Scale,
    /// The sides as the file has them.
    pub sides: String,
    bytes: Vec<u8>,
    /// Where the samples start.
    start: usize,
}

/// The scale as the file has it. It is not applied to the samples.
pub struct Scale {
    text: String,
    little_endian: bool,
}

impl Scale {
    fn read(text: &str) -> Option<Self> {
        let scale: f64 = text.parse().ok()?;
        let sound = scale.is_finite() && scale != 0.0;
        sound.then(|| Self {
            text: text.into(),
            little_endian: scale < 0.0,
        })
    }

    fn sample(&self, bytes: [u8; SAMPLE]) -> f32 {
        if self.little_endian {
            f32::from_le_bytes(bytes)
        } else {
            f32::from_be_bytes(bytes)
        }
    }

    fn bytes(&self, sample: f32) -> [u8; SAMPLE] {
        if self.little_endian {
            sample.to_le_bytes()
        } else {
            sample.to_be_bytes()
        }
    }
}

pub fn parse(bytes: Vec<u8>) -> Result<Pfm, String> {
    let (planes, mut rest) = magic(&bytes)?;
    let mut side = |name| {
        let text = word(&mut rest)?;
        let wrong = || format!("{name} {} is not a whole number", quoted(text));
        Ok::<_, String>((text, number::count(text).ok_or_else(wrong)?))
    };
    let ((columns, width), (rows, height)) = (side("width")?, side("height")?);
    let text = word(&mut rest)?;
    let wrong = || format!("scale {} is not a finite number other than 0", quoted(text));
    Ok(Pfm {
        region: at_corner(width, height),
        planes,
        scale: Scale::read(text).ok_or_else(wrong)?,
        sides: format!("{columns} x {rows}"),
        start: bytes.len() - rest.len(),
        bytes,
    })
}

/// The number of planes, and what follows the first word.
fn magic(bytes: &[u8]) -> Result<(u32, &[u8]), String> {
    for (planes, magic) in MAGICS {
        if magic.starts_with(bytes) {
            return Err(HEADER_ENDS.into());
        }
        match bytes.strip_prefix(magic) {
            Some(rest) if rest[0].is_ascii_whitespace() => return Ok((planes, rest)),
            _ => {}
        }
    }
    Err("not a PFM file: does not begin with PF or Pf".into())
}

/// The next word of the header; the byte after it is consumed too.
fn word<'a>(rest: &mut &'a [u8]) -> Result<&'a str, String> {
    let text = rest.trim_ascii_start();
    let mut reach = text.iter().take(LONGEST_WORD + 1);
    let Some(end) = reach.position(u8::is_ascii_whitespace) else {
        return Err(if text.len() > LONGEST_WORD {
            format!("a word in the header is longer than {LONGEST_WORD} bytes")
        } else {
            HEADER_ENDS.into()
        });
    };
    *rest = &text[end + 1..];
    let word = str::from_utf8(&text[..end]).ok();
    let printable = word.filter(|word| word.bytes().all(|byte| byte.is_ascii_graphic()));
    printable.ok_or_else(|| "a word in the header is not plain text".into())
}

impl Pfm {
    /// Planes with the top row first, of a file whose sides are in range. Its length must fit them.
    pub fn picture(self) -> Result<(Picture, Scale), String> {
        let (samples, left_over) = self.bytes[self.start..].as_chunks();
        self.check_length(samples.len(), left_over.len())?;
        let count = self.planes as usize;
        let row = count * self.region.width as usize;
        let plane = |c| {
            let rows = samples.chunks_exact(row).rev();
            rows.flat_map(move |row| row.iter().skip(c).step_by(count))
        };
        let mut planes = Vec::with_capacity(samples.len());
        let sample = |&bytes| self.scale.sample(bytes);
        planes.extend((0..count).flat_map(plane).map(sample));
        let picture = Picture {
            region: self.region,
            planes,
        };
        Ok((picture, self.scale))
    }

    fn check_length(&self, samples: usize, left_over: usize) -> Result<(), String> {
        let (expected, sides) = (self.region.samples_in(self.planes), &self.sides);
        if samples < expected {
            return Err(format!(
                "has {samples} of the {expected} samples of {sides}"
            ));
        }
        if samples > expected || left_over > 0 {
            return Err(format!("has bytes after the {expected} samples of {sides}"));
        }
        Ok(())
    }
}

/// The file of a picture.
pub fn bytes(picture: &Picture, scale: &Scale) -> Vec<u8> {
    let Region { width, height, .. } = picture.region;
    let header = format!("\n{width} {height}\n{}\n", scale.text);
    let magic = MAGICS
        .iter()
        .find(|(planes, _)| *planes == picture.plane_count());
    let (_, magic) = magic.expect("one plane or three");
    let length = magic.len() + header.len() + SAMPLE * picture.planes.len();
    let mut file = Vec::with_capacity(length);
    file.extend_from_slice(magic);
    file.extend(header.bytes());
    let from_bottom = (0..height).rev().flat_map(|y| picture.row(y));
    file.extend(from_bottom.flat_map(|sample| scale.bytes(sample)));
    file
}
