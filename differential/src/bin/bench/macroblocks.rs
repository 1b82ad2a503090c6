//! The table of macroblocks: prediction from whole pictures, by the vectors of a macroblock.

mod calls;
mod decoded;
mod rows;

use std::hint::black_box;
use std::iter;

use oracle::frame_assembly::{FrameBuffer, Plane};
use oracle::rng::Rng;
use oracle::sequence_extension::ChromaFormat;

use crate::agreement::{same_bytes, unlike};
use crate::c::{self, Library, Macroblock, bench_plain_macroblock};
use crate::marks::Marks;
use crate::table::{Batch, Effort, Table, Who};
use calls::{Call, Pictures, original, port};
use decoded::Decoded;
use rows::{CALLS, HEIGHT, Row, WIDTH, rows};

const SEED: u64 = 767;

/// In 4:4:4.
const LARGEST_MACROBLOCK: usize = 768;

/// The pictures of a format, and the calls.
struct Format {
    dest: FrameBuffer,
    forward: FrameBuffer,
    backward: FrameBuffer,
    /// How many bytes a macroblock has.
    length: usize,
    rows: Vec<Row>,
}

impl Format {
    fn draw(rng: &mut Rng, name: &str, format: ChromaFormat, length: usize) -> Self {
        Self {
            dest: FrameBuffer::new(WIDTH, HEIGHT, format),
            forward: draw_picture(rng, format),
            backward: draw_picture(rng, format),
            length,
            rows: rows(rng, name, format),
        }
    }

    fn pictures(&self) -> Pictures<'_> {
        Pictures {
            dest: &self.dest,
            forward: &self.forward,
            backward: &self.backward,
        }
    }

    /// The same for C. The decoded picture is the libraries' alone.
    fn c_pictures(&self, decoded: &mut Decoded) -> c::Pictures<'_> {
        c::Pictures {
            format: self.dest.chroma_format as u32,
            references: [&self.forward, &self.backward]
                .map(|picture| [&picture.y, &picture.cb, &picture.cr].map(c_plane)),
            decoded: decoded.planes(),
        }
    }
}

fn c_plane(plane: &Plane) -> c::Plane<'_> {
    c::Plane::new(plane.samples(), plane.width(), plane.height())
}

pub struct Macroblocks {
    formats: Vec<Format>,
    libraries: Vec<Library>,
}

impl Macroblocks {
    /// Draws the pictures and the calls, and sees that all contestants give the same bytes.
    pub fn prepare() -> Result<Self, String> {
        let mut rng = Rng::new(SEED);
        let formats: Vec<_> = [
            ("4:2:0", ChromaFormat::Yuv420, 384),
            ("4:2:2", ChromaFormat::Yuv422, 512),
            ("4:4:4", ChromaFormat::Yuv444, LARGEST_MACROBLOCK),
        ]
        .into_iter()
        .map(|(name, format, length)| Format::draw(&mut rng, name, format, length))
        .collect();
        let macroblocks = Self {
            formats,
            libraries: c::libraries(),
        };
        for format in &macroblocks.formats {
            for row in &format.rows {
                macroblocks
                    .compare(format, row)
                    .map_err(|cause| format!("{}: {cause}", row.what))?;
            }
        }
        Ok(macroblocks)
    }

    pub fn print(&self, effort: Effort) {
        let table = Table {
            contestants: [Who::Rust, Who::Fozdrik, Who::C]
                .into_iter()
                .chain(self.libraries.iter().map(|library| library.who))
                .collect(),
            repetitions: match effort {
                Effort::Full => 201,
                Effort::Quick => 41,
            },
            calls: CALLS,
            decimals: 1,
        };
        table.print_head(
            "Macroblocks",
            &format!(
                "pictures of {WIDTH} × {HEIGHT} drawn samples, drawn macroblocks and vectors; each \
                 of a macroblock's vectors has each of the four half patterns in a quarter of the \
                 calls. Inside, all that is read of all components lies inside; at the edges, \
                 every block of a macroblock reaches past the same one or two edges. The original \
                 is called as Rust calls Rust, and returns three new vectors, which to allocate \
                 and free is part of its call, as are those that it makes on the way. Fozdrik is \
                 called through its C entry points, with some fifty numbers, checks them all, and \
                 writes to a lent buffer, packed; C is handed structs, checks where it reads and \
                 no more, and writes to the same. The libraries' functions are called by those \
                 structs too, and write each macroblock at its place in a picture, as a decoder \
                 does; they check nothing, and are not for reads outside.",
            ),
        );
        let mut marks = Marks::default();
        for format in &self.formats {
            for row in &format.rows {
                self.print_row(&table, format, row, &mut marks);
            }
        }
        marks.print();
    }

    fn print_row(&self, table: &Table, format: &Format, row: &Row, marks: &mut Marks) {
        let pictures = format.pictures();
        let mut rust = || {
            for call in &row.calls {
                // To free what it returns is part of the call.
                let _ = black_box(original(black_box(pictures), black_box(call)));
            }
        };
        let mut fozdrik_out = [0; LARGEST_MACROBLOCK];
        let fozdrik_out = &mut fozdrik_out[..format.length];
        let mut fozdrik = || {
            for numbers in &row.numbers {
                black_box(port(black_box(pictures), black_box(numbers), fozdrik_out));
                black_box(&mut *fozdrik_out);
            }
        };
        let mut decoded = Decoded::like(&format.dest);
        let c_pictures = format.c_pictures(&mut decoded);
        let mut c_out = [0; LARGEST_MACROBLOCK];
        let mut c = || {
            for numbers in &row.numbers {
                // SAFETY: no macroblock is larger than the room.
                unsafe {
                    bench_plain_macroblock(
                        black_box(&c_pictures),
                        black_box(numbers),
                        c_out.as_mut_ptr(),
                    );
                }
                black_box(&mut c_out);
            }
        };
        let mut of_libraries: Vec<_> = self
            .libraries_for(row)
            .map(|library| {
                let batch = move || {
                    for numbers in &row.numbers {
                        // SAFETY: the row is inside, and the decoded picture has its sides.
                        unsafe {
                            (library.macroblock)(black_box(&c_pictures), black_box(numbers));
                        }
                    }
                    library.done();
                };
                (library.who, batch)
            })
            .collect();

        let mut batches: Vec<(Who, Batch<'_>)> = vec![
            (Who::Rust, &mut rust),
            (Who::Fozdrik, &mut fozdrik),
            (Who::C, &mut c),
        ];
        for (who, batch) in &mut of_libraries {
            batches.push((*who, batch));
        }
        let times = table.print_row(&row.what, &mut batches);
        if let Some(mark) = row.mark {
            marks.see(&row.what, mark, &times);
        }
    }

    fn libraries_for(&self, row: &Row) -> impl Iterator<Item = Library> {
        let libraries = self.libraries.iter().copied();
        libraries.filter(|_| row.inside)
    }

    /// Sees that all give the same bytes for every call of the row.
    fn compare(&self, format: &Format, row: &Row) -> Result<(), String> {
        let mut decoded = Decoded::like(&format.dest);
        for (call, numbers) in iter::zip(&row.calls, &row.numbers) {
            self.compare_one(format, row, call, numbers, &mut decoded)
                .map_err(|cause| format!("{cause}: {call:?}"))?;
        }
        Ok(())
    }

    fn compare_one(
        &self,
        format: &Format,
        row: &Row,
        call: &Call,
        numbers: &Macroblock,
        decoded: &mut Decoded,
    ) -> Result<(), String> {
        let (y, cb, cr) = original(format.pictures(), call)
            .map_err(|error| format!("the original refuses: {error}"))?;
        let expected = [y, cb, cr].concat();
        if expected.len() != format.length {
            return Err(format!("the original gives {} bytes", expected.len()));
        }

        let mut out = unlike(&expected);
        let answer = port(format.pictures(), numbers, &mut out);
        if answer != 0 {
            return Err(format!("the port refuses with {answer}"));
        }
        same_bytes(Who::Fozdrik, &expected, &out)?;

        let mut out = unlike(&expected);
        let pictures = format.c_pictures(decoded);
        // SAFETY: the room has a macroblock's length.
        unsafe { bench_plain_macroblock(&pictures, numbers, out.as_mut_ptr()) };
        same_bytes(Who::C, &expected, &out)?;

        for library in self.libraries_for(row) {
            let Call { column, row, .. } = *call;
            for (place, sample) in iter::zip(decoded.macroblock(column, row), unlike(&expected)) {
                *place = sample;
            }
            let pictures = format.c_pictures(decoded);
            // SAFETY: the row is inside, and the decoded picture has its sides.
            unsafe { (library.macroblock)(&pictures, numbers) };
            library.done();
            let out: Vec<u8> = decoded
                .macroblock(column, row)
                .map(|sample| *sample)
                .collect();
            same_bytes(library.who, &expected, &out)?;
        }
        Ok(())
    }
}

fn draw_picture(rng: &mut Rng, format: ChromaFormat) -> FrameBuffer {
    let mut picture = FrameBuffer::new(WIDTH, HEIGHT, format);
    for plane in [&mut picture.y, &mut picture.cb, &mut picture.cr] {
        fill(rng, plane);
    }
    picture
}

fn fill(rng: &mut Rng, plane: &mut Plane) {
    for y in 0..plane.height() {
        for x in 0..plane.width() {
            plane.put_sample(x, y, rng.byte());
        }
    }
}
