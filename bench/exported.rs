//! What crates/ffi exports, as functions over slices.

/// A module with the functions that are linked by these names.
macro_rules! exported {
    ($module:ident, $read:literal, $write:literal, $copy:literal) => {
        pub mod $module {
            // crates/ffi/src/lib.rt: a slice is a pointer and a length.
            extern "C" {
                #[link_name = $read]
                fn linked_read(strict: bool, datagram: *const u8, len: usize, out: *mut u32, room: usize) -> u32;
                #[link_name = $write]
                fn linked_write(
                    strict: bool,
                    packet: *const u32,
                    numbers: usize,
                    datagram: *const u8,
                    len: usize,
                    edits: *const u8,
                    edited: usize,
                    out: *mut u8,
                    room: usize,
                ) -> u64;
                #[link_name = $copy]
                fn linked_copy(strict: bool, datagram: *const u8, len: usize, out: *mut u8, room: usize) -> u64;
            }

            // SAFETY, of all: the pointers and lengths are those of slices, and the functions are proved to stay within them.
            pub fn read(datagram: &[u8], out: &mut [u32]) -> u32 {
                unsafe { linked_read(false, datagram.as_ptr(), datagram.len(), out.as_mut_ptr(), out.len()) }
            }

            /// Over an edit store of no bytes.
            pub fn write(packet: &[u32], datagram: &[u8], out: &mut [u8]) -> u64 {
                let (edits, edited) = ([].as_ptr(), 0);
                let (numbers, len, room) = (packet.len(), datagram.len(), out.len());
                let (packet, datagram, out) = (packet.as_ptr(), datagram.as_ptr(), out.as_mut_ptr());
                unsafe { linked_write(false, packet, numbers, datagram, len, edits, edited, out, room) }
            }

            pub fn copy(datagram: &[u8], out: &mut [u8]) -> u64 {
                unsafe { linked_copy(false, datagram.as_ptr(), datagram.len(), out.as_mut_ptr(), out.len()) }
            }
        }
    };
}

exported!(now, "rickwinter_v2_read", "rickwinter_v2_write", "rickwinter_copy");
