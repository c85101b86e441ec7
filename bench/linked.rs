//! What else is timed, as functions over slices: plain C (bench/floor.c), libcoap (bench/libcoap.c), and a packet, a cursor and a
//! builder, each from a linked unit of its own (bench/timed).

// A slice is a pointer and a length.
extern "C" {
    fn floor_read(datagram: *const u8, len: usize, out: *mut u32, room: usize) -> u32;
    fn floor_walk(datagram: *const u8, len: usize) -> u64;
    fn floor_write(
        packet: *const u32,
        numbers: usize,
        datagram: *const u8,
        len: usize,
        edits: *const u8,
        edited: usize,
        out: *mut u8,
        room: usize,
    ) -> u64;
}

#[cfg(libcoap)]
extern "C" {
    fn libcoap_prepare();
    fn libcoap_parse(datagram: *const u8, len: usize) -> i32;
    fn libcoap_parsed(len: usize, out: *mut u32);
    fn libcoap_write(packet: *const u32, store: *const u8) -> i32;
    fn libcoap_agrees(packet: *const u32, datagram: *const u8, len: usize) -> i32;
}

extern "C" {
    fn timed_packet_read(strict: bool, datagram: *const u8, len: usize) -> u64;
    fn timed_packet_write(
        strict: bool,
        packet: *const u32,
        numbers: usize,
        store: *const u8,
        len: usize,
        out: *mut u8,
        room: usize,
    ) -> u64;
    fn timed_cursor(strict: bool, datagram: *const u8, len: usize) -> u64;
    fn timed_builder(
        strict: bool,
        packet: *const u32,
        numbers: usize,
        store: *const u8,
        len: usize,
        out: *mut u8,
        room: usize,
    ) -> u64;
}

// SAFETY, of all: the pointers and lengths are those of slices. The packet, the cursor and the builder are proved to stay within
// them; plain C tests the lengths; libcoap is handed flat forms that were read from the datagram beside them, and outputs of
// MOST_NUMBERS.
pub mod floor {
    pub fn read(datagram: &[u8], out: &mut [u32]) -> u32 {
        unsafe { super::floor_read(datagram.as_ptr(), datagram.len(), out.as_mut_ptr(), out.len()) }
    }

    pub fn walk(datagram: &[u8]) -> u64 {
        unsafe { super::floor_walk(datagram.as_ptr(), datagram.len()) }
    }

    pub fn write(packet: &[u32], datagram: &[u8], out: &mut [u8]) -> u64 {
        let (edits, edited) = ([].as_ptr(), 0);
        let (numbers, len, room) = (packet.len(), datagram.len(), out.len());
        let (packet, datagram, out) = (packet.as_ptr(), datagram.as_ptr(), out.as_mut_ptr());
        unsafe { super::floor_write(packet, numbers, datagram, len, edits, edited, out, room) }
    }
}

#[cfg(libcoap)]
pub mod libcoap {
    pub fn prepare() {
        unsafe { super::libcoap_prepare() }
    }

    pub fn parse(datagram: &[u8]) -> bool {
        unsafe { super::libcoap_parse(datagram.as_ptr(), datagram.len()) > 0 }
    }

    /// The flat form of what was parsed last, from so many bytes.
    pub fn parsed(len: usize, out: &mut [u32; crate::turns::MOST_NUMBERS]) {
        unsafe { super::libcoap_parsed(len, out.as_mut_ptr()) }
    }

    pub fn write(packet: &[u32], store: &[u8]) -> bool {
        unsafe { super::libcoap_write(packet.as_ptr(), store.as_ptr()) == 1 }
    }

    /// Whether what is written is the message that the flat form was read from.
    pub fn agrees(packet: &[u32], datagram: &[u8]) -> bool {
        unsafe { super::libcoap_agrees(packet.as_ptr(), datagram.as_ptr(), datagram.len()) == 1 }
    }
}

pub mod timed {
    pub fn packet_read(datagram: &[u8]) -> u64 {
        unsafe { super::timed_packet_read(false, datagram.as_ptr(), datagram.len()) }
    }

    pub fn packet_write(packet: &[u32], store: &[u8], out: &mut [u8]) -> u64 {
        let (numbers, len, room) = (packet.len(), store.len(), out.len());
        unsafe {
            super::timed_packet_write(false, packet.as_ptr(), numbers, store.as_ptr(), len, out.as_mut_ptr(), room)
        }
    }

    pub fn cursor(datagram: &[u8]) -> u64 {
        unsafe { super::timed_cursor(false, datagram.as_ptr(), datagram.len()) }
    }

    pub fn builder(packet: &[u32], store: &[u8], out: &mut [u8]) -> u64 {
        let (numbers, len, room) = (packet.len(), store.len(), out.len());
        unsafe { super::timed_builder(false, packet.as_ptr(), numbers, store.as_ptr(), len, out.as_mut_ptr(), room) }
    }
}
