//! The table of blocks: prediction from a plane, by a vector.

mod calls;
mod rows;

use std::hint::black_box;
use std::iter;

use oracle::forming_predictions::ReferencePlane;
use oracle::rng::Rng;

use crate::agreement::{same_bytes, unlike};
use crate::aligned::Aligned;
use crate::c::{self, Block, Library, Plane, bench_plain_block};
use crate::marks::Marks;
use crate::table::{Batch, Effort, Table, Who};
use calls::{Call, Reference, original, port};
use rows::{CALLS, HEIGHT, Row, WIDTH, rows};

const SEED: u64 = 764;

const LARGEST_BLOCK: usize = 256;

/// Of a field: 8 lines, every other one of the plane's.
const LARGEST_LIBRARY_BLOCK: usize = WIDTH * 16;

/// What is predicted from, and the calls.
pub struct Blocks {
    samples: Vec<u8>,
    rows: Vec<Row>,
    libraries: Vec<Library>,
}

impl Blocks {
    /// Draws the calls, and sees that all contestants give the same bytes.
    pub fn prepare() -> Result<Self, String> {
        let mut rng = Rng::new(SEED);
        let samples = rng.bytes(WIDTH * HEIGHT);
        let rows = rows(&mut rng);
        let blocks = Self {
            samples,
            rows,
            libraries: c::libraries(),
        };
        for row in &blocks.rows {
            blocks
                .compare(row)
                .map_err(|cause| format!("{}: {cause}", row.what))?;
        }
        Ok(blocks)
    }

    pub fn print(&self, effort: Effort) {
        let table = Table {
            contestants: [Who::Rust, Who::Fozdrik, Who::C]
                .into_iter()
                .chain(self.libraries.iter().map(|library| library.who))
                .collect(),
            repetitions: match effort {
                Effort::Full => 801,
                Effort::Quick => 101,
            },
            calls: CALLS,
            decimals: 1,
        };
        table.print_head(
            "Blocks",
            &format!(
                "a plane of {WIDTH} × {HEIGHT} drawn samples, drawn positions and vectors. The \
                 original returns a new vector, and to allocate and free it is part of its call, \
                 which the last row shows alone; Fozdrik and C write to a lent buffer, packed. \
                 Fozdrik's entry point is the benchmark's own, and checks sides, position and \
                 lengths; C checks where it reads and no more. The libraries' functions write to \
                 lines that are as far apart as the plane's, here always the same ones; they check \
                 nothing, and are not for reads outside the plane or for other widths than 16 and \
                 8."
            ),
        );
        let mut marks = Marks::default();
        for row in &self.rows {
            self.print_row(&table, row, &mut marks);
        }
        table.print_overhead(
            &format!("a vector of {LARGEST_BLOCK} bytes, allocated and freed"),
            &mut [(Who::Rust, &mut || {
                for _ in 0..CALLS {
                    black_box(Vec::<u8>::with_capacity(black_box(LARGEST_BLOCK)));
                }
            })],
        );
        marks.print();
    }

    fn print_row(&self, table: &Table, row: &Row, marks: &mut Marks) {
        let reference = self.reference();
        let mut rust = || {
            for call in &row.calls {
                black_box(original(black_box(reference), *black_box(call)));
            }
        };
        let mut fozdrik_out = [0; LARGEST_BLOCK];
        let mut fozdrik = || {
            for call in &row.calls {
                let call = *black_box(call);
                let out = &mut fozdrik_out[..call.size.width * call.size.height];
                black_box(port(black_box(reference), call, out));
                black_box(out);
            }
        };
        let plane = self.plane();
        let mut c_out = [0; LARGEST_BLOCK];
        let mut c = || {
            for block in &row.blocks {
                // SAFETY: no block is larger than the room.
                unsafe {
                    bench_plain_block(black_box(&plane), black_box(block), &raw mut c_out[0])
                };
                black_box(&mut c_out);
            }
        };
        let mut room = Aligned::new(LARGEST_LIBRARY_BLOCK);
        let library_out = room.bytes().as_mut_ptr();
        let mut of_libraries: Vec<_> = self
            .libraries_for(row)
            .map(|library| {
                let batch = move || {
                    for block in &row.blocks {
                        // SAFETY: the row has been compared: the blocks lie inside, and have room.
                        unsafe {
                            (library.block)(black_box(&plane), black_box(block), library_out);
                        }
                    }
                    library.done();
                };
                (library.who, batch)
            })
            .collect();

        let mut batches: Vec<(Who, Batch<'_>)> = vec![
            (Who::Rust, &mut rust),
            (Who::Fozdrik, &mut fozdrik),
            (Who::C, &mut c),
        ];
        for (who, batch) in &mut of_libraries {
            batches.push((*who, batch));
        }
        let times = table.print_row(&row.what, &mut batches);
        if let Some(mark) = row.mark {
            marks.see(&row.what, mark, &times);
        }
    }

    fn reference(&self) -> ReferencePlane<'_> {
        ReferencePlane::new(&self.samples, WIDTH, HEIGHT).expect("the length fits")
    }

    fn plane(&self) -> Plane<'_> {
        Plane::new(&self.samples, WIDTH, HEIGHT)
    }

    fn libraries_for(&self, row: &Row) -> impl Iterator<Item = Library> {
        let libraries = self.libraries.iter().copied();
        libraries.filter(|_| row.in_libraries)
    }

    /// Sees that all give the same bytes for every call of the row.
    fn compare(&self, row: &Row) -> Result<(), String> {
        for (call, block) in iter::zip(&row.calls, &row.blocks) {
            self.compare_one(row, call, block)
                .map_err(|cause| format!("{cause}: {call}"))?;
        }
        Ok(())
    }

    fn compare_one(&self, row: &Row, call: &Call, block: &Block) -> Result<(), String> {
        let expected = original(self.reference(), *call);
        let mut out = unlike(&expected);
        let answer = port(self.reference(), *call, &mut out);
        if answer != 0 {
            return Err(format!("the port refuses with {answer}"));
        }
        same_bytes(Who::Fozdrik, &expected, &out)?;

        out = unlike(&expected);
        // SAFETY: the room has the block's length.
        unsafe { bench_plain_block(&self.plane(), block, out.as_mut_ptr()) };
        same_bytes(Who::C, &expected, &out)?;

        for library in self.libraries_for(row) {
            out = unlike(&expected);
            self.predict_by(library, call, block, &mut out);
            same_bytes(library.who, &expected, &out)?;
        }
        Ok(())
    }

    /// The block by a library's function, from the packed form and to it.
    fn predict_by(&self, library: Library, call: &Call, block: &Block, packed: &mut [u8]) {
        let stride = match call.reference {
            Reference::Frame => WIDTH,
            Reference::TopField | Reference::BottomField => 2 * WIDTH,
        };
        let width = call.size.width;
        let mut room = Aligned::new(LARGEST_LIBRARY_BLOCK);
        for (row, line) in iter::zip(packed.chunks(width), room.bytes().chunks_mut(stride)) {
            line[..width].copy_from_slice(row);
        }
        // SAFETY: rows that are compared with a library are of blocks inside the plane, and the
        // room takes 16 lines of the frame or 8 of a field.
        unsafe { (library.block)(&self.plane(), block, room.bytes().as_mut_ptr()) };
        library.done();
        for (row, line) in iter::zip(packed.chunks_mut(width), room.bytes().chunks(stride)) {
            row.copy_from_slice(&line[..width]);
        }
    }
}
