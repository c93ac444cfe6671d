//! The C interface of the archive, of the C file by each compiler, and of an
//! earlier archive: the same calls for all.

use super::race::OURS;
use super::tsv8::Buffers;
use j8::raw::{j8_fed, j8_nodes, j8_result, j8_sheet, j8_upload};

/// As library.c has it.
#[repr(C)]
#[derive(Clone, Copy)]
pub struct Library {
    string_read: unsafe extern "C" fn(*const u8, usize, *mut u8, usize) -> j8_result,
    string_write: unsafe extern "C" fn(*const u8, usize, *mut u8, usize) -> j8_result,
    upload_fresh: unsafe extern "C" fn() -> j8_upload,
    upload_feed:
        unsafe extern "C" fn(j8_upload, *const u8, usize, *mut u8, usize, *mut u8, usize) -> j8_fed,
    upload_finish: unsafe extern "C" fn(j8_upload, *const u8, usize, *mut u8, usize) -> j8_fed,
    json8_read: unsafe extern "C" fn(*const u8, usize, *mut u32, usize, *mut u8, usize) -> j8_nodes,
    json8_write: unsafe extern "C" fn(
        *const u32,
        usize,
        *const u8,
        usize,
        *const u8,
        usize,
        *mut u8,
        usize,
    ) -> j8_result,
    tsv8_read: unsafe extern "C" fn(
        *const u8,
        usize,
        *mut u32,
        usize,
        *mut u32,
        usize,
        *mut u32,
        usize,
        *mut u8,
        usize,
    ) -> j8_sheet,
}

pub const ARCHIVE: Library = Library {
    string_read: j8::raw::j8_string_read,
    string_write: j8::raw::j8_string_write,
    upload_fresh: j8::raw::j8_upload_fresh,
    upload_feed: j8::raw::j8_upload_feed,
    upload_finish: j8::raw::j8_upload_finish,
    json8_read: j8::raw::j8_json8_read,
    json8_write: j8::raw::j8_json8_write,
    tsv8_read: j8::raw::j8_tsv8_read,
};

/// The C file's builds, by compiler and options.
pub const BUILDS: [&str; 3] = ["gcc -O2", "gcc -O3", "clang -O2"];

/// The archive that J8_BEFORE named when this was built.
pub const BEFORE: &str = "before";

/// The archive, and the others that are there.
pub fn libraries() -> Vec<(&'static str, Library)> {
    #[allow(unused_mut)]
    let mut all = vec![(OURS, ARCHIVE)];
    #[cfg(gcc)]
    {
        extern "C" {
            static gcc_o2: Library;
            static gcc_o3: Library;
        }
        // SAFETY: they are constant, and laid out as here.
        all.extend(unsafe { [(BUILDS[0], gcc_o2), (BUILDS[1], gcc_o3)] });
    }
    #[cfg(clang)]
    {
        extern "C" {
            static clang_o2: Library;
        }
        // SAFETY: as above.
        all.push((BUILDS[2], unsafe { clang_o2 }));
    }
    #[cfg(before)]
    {
        extern "C" {
            static before: Library;
        }
        // SAFETY: as above.
        all.push((BEFORE, unsafe { before }));
    }
    all
}

impl Library {
    pub fn string_read(&self, text: &[u8], out: &mut [u8]) -> j8_result {
        // SAFETY: both parts are slices that don't overlap.
        unsafe { (self.string_read)(text.as_ptr(), text.len(), out.as_mut_ptr(), out.len()) }
    }

    pub fn string_write(&self, data: &[u8], out: &mut [u8]) -> j8_result {
        // SAFETY: as above.
        unsafe { (self.string_write)(data.as_ptr(), data.len(), out.as_mut_ptr(), out.len()) }
    }

    /// A whole upload in pieces. Gives the bytes used.
    pub fn upload(&self, text: &[u8], piece: usize, line: &mut [u8], out: &mut [u8]) -> usize {
        // SAFETY: all parts are slices that don't overlap.
        unsafe {
            let mut upload = (self.upload_fresh)();
            for piece in text.chunks(piece) {
                let fed = (self.upload_feed)(
                    upload,
                    piece.as_ptr(),
                    piece.len(),
                    line.as_mut_ptr(),
                    line.len(),
                    out.as_mut_ptr(),
                    out.len(),
                );
                assert_eq!(fed.answer.number, 0);
                upload = fed.upload;
            }
            let fed = (self.upload_finish)(
                upload,
                line.as_ptr(),
                line.len(),
                out.as_mut_ptr(),
                out.len(),
            );
            assert_eq!(fed.answer.number, 0);
            fed.upload.used
        }
    }

    pub fn json8_read(&self, text: &[u8], table: &mut [u32], store: &mut [u8]) -> j8_nodes {
        // SAFETY: all parts are slices that don't overlap.
        unsafe {
            (self.json8_read)(
                text.as_ptr(),
                text.len(),
                table.as_mut_ptr(),
                table.len(),
                store.as_mut_ptr(),
                store.len(),
            )
        }
    }

    pub fn json8_write(&self, nodes: j8::Nodes, out: &mut [u8]) -> j8_result {
        let (table, text, store) = (nodes.table(), nodes.text(), nodes.store());
        // SAFETY: all parts are slices that don't overlap.
        unsafe {
            (self.json8_write)(
                table.as_ptr(),
                table.len(),
                text.as_ptr(),
                text.len(),
                store.as_ptr(),
                store.len(),
                out.as_mut_ptr(),
                out.len(),
            )
        }
    }

    pub fn tsv8_read(&self, text: &[u8], buffers: &mut Buffers) -> j8_sheet {
        let Buffers {
            names,
            types,
            cells,
            store,
        } = buffers;
        // SAFETY: all parts are slices that don't overlap.
        unsafe {
            (self.tsv8_read)(
                text.as_ptr(),
                text.len(),
                names.as_mut_ptr(),
                names.len(),
                types.as_mut_ptr(),
                types.len(),
                cells.as_mut_ptr(),
                cells.len(),
                store.as_mut_ptr(),
                store.len(),
            )
        }
    }
}
