//! The declarations of `iwarp.h`, as they stand there and under the same names. The safe types of this crate are over them. The
//! header says what each means, and what a caller must uphold: `man 3 libiwarp` has it too.
//!
//! A program needs them only for what the safe types leave out: places lent at many streams at once, as for reads that the system
//! does meanwhile ([`Handle::as_raw`](crate::Handle::as_raw) gives the handle).
#![allow(non_camel_case_types)]

use std::ffi::{c_char, c_void};

macro_rules! constants {
    ($($kind:ty { $($name:ident = $value:literal,)* })*) => {
        $($(
            #[doc = concat!("`", stringify!($name), "` of `iwarp.h`.")]
            pub const $name: $kind = $value;
        )*)*

        #[cfg(test)]
        pub(crate) const CONSTANTS: &[(&str, i64)] = &[$($((stringify!($name), $value)),*),*];
    };
}

macro_rules! structs {
    ($($(#[$about:meta])* struct $name:ident { $($field:ident: $kind:ty,)* })*) => {
        $(
            $(#[$about])*
            #[doc = concat!("\n\n`struct ", stringify!($name), "` of `iwarp.h`.")]
            #[repr(C)]
            #[derive(Clone, Copy, Debug)]
            pub struct $name {
                $(
                    #[doc = concat!("`", stringify!($field), "` in `iwarp.h`.")]
                    pub $field: $kind,
                )*
            }
        )*

        #[cfg(test)]
        pub(crate) const STRUCTS: &[tests::Struct] = &[$(tests::Struct {
            name: stringify!($name),
            size: size_of::<$name>(),
            align: align_of::<$name>(),
            fields: &[$((stringify!($field), std::mem::offset_of!($name, $field), size_of::<$kind>())),*],
        }),*];
    };
}

macro_rules! functions {
    (@result) => { () };
    (@result $result:ty) => { $result };
    ($(fn $name:ident($($parameter:ident: $kind:ty),* $(,)?) $(-> $result:ty)?;)*) => {
        extern "C" {
            $(
                #[doc = concat!("`", stringify!($name), "` of `iwarp.h`.")]
                pub fn $name($($parameter: $kind),*) $(-> $result)?;
            )*
        }

        #[cfg(test)]
        pub(crate) const FUNCTIONS: &[tests::Function] = &[$(tests::Function {
            name: stringify!($name),
            parameters: &[$(<$kind as tests::InC>::NAME),*],
            result: <functions!(@result $($result)?) as tests::InC>::NAME,
        }),*];
    };
}

constants! {
    u32 {
        IWARP_VERSION = 10300,
    }
    i32 {
        IWARP_OK = 0,
        IWARP_IS_CLOSED = 1,
        IWARP_ALREADY_OPEN = 2,
        IWARP_NO_MEMORY = 3,
        IWARP_NO_ROOM = 4,
        IWARP_NO_SUCH_STREAM = 5,
        IWARP_NO_REGION = 6,
        IWARP_OUTSIDE = 7,
        IWARP_BAD_DOMAIN = 8,
        IWARP_DOMAIN_TAKEN = 9,
        IWARP_NO_DOMAIN = 10,
        IWARP_DOMAIN_FULL = 11,
        IWARP_REGION_TOO_LONG = 12,
        IWARP_BASE_WRAP = 13,
        IWARP_NUMBER_TAKEN = 14,
        IWARP_BAD_NUMBER = 15,
        IWARP_BAD_ROLE = 16,
        IWARP_PRIVATE_TOO_LONG = 17,
        IWARP_NOT_ASKED = 18,
        IWARP_NOT_OPEN = 19,
        IWARP_MESSAGES_FULL = 20,
        IWARP_MESSAGE_TOO_LONG = 21,
        IWARP_BUFFERS_FULL = 22,
        IWARP_ENDED = 23,
        IWARP_BAD_SIZE = 24,
        IWARP_TOO_FAR = 25,
        IWARP_LATE = 26,
        IWARP_ALREADY_SHARED = 27,
        IWARP_NOT_SHARED = 28,
        IWARP_POOL_FULL = 29,
        IWARP_SHARED = 30,
        IWARP_BUFFER_MISSING = 31,
        IWARP_BUFFER_EXISTS = 32,
        IWARP_BUFFER_TOO_LONG = 33,
        IWARP_BAD_BITS = 34,
        IWARP_NO_READS = 35,
        IWARP_NOT_AT_REST = 36,
        IWARP_NUMBERS_SPENT = 37,
        IWARP_WINDOW_FULL = 38,
        IWARP_NOT_LENT = 39,
        IWARP_BAD_STRUCT = 40,
        IWARP_OTHER_MEMORY = 41,
    }
    u32 {
        IWARP_WRITE = 1,
        IWARP_READ = 2,
        IWARP_SINK = 4,
        IWARP_INVALIDATE = 8,
        IWARP_LIMITED = 1,
        IWARP_DRAWN = 2,
        IWARP_PRESET = 0,
        IWARP_INITIATOR = 1,
        IWARP_RESPONDER = 2,
        IWARP_MARKERS = 1,
        IWARP_CRC = 2,
        IWARP_ENHANCED = 4,
        IWARP_PEER_TO_PEER = 8,
        IWARP_SENDS_MARKERS = 1,
        IWARP_EXPECTS_MARKERS = 2,
        IWARP_USES_CRC = 4,
        IWARP_RTR_WRITE = 8,
        IWARP_RTR_READ = 16,
        IWARP_STATE_STARTING = 0,
        IWARP_STATE_OPEN = 1,
        IWARP_STATE_ENDED = 2,
        IWARP_SOLICITED = 1,
        IWARP_INVALIDATES = 2,
        IWARP_IDLE = 0,
        IWARP_DONE = 1,
        IWARP_FLUSHED = 2,
        IWARP_FLUSHED_RECV = 3,
        IWARP_ASKED = 4,
        IWARP_OPENED = 5,
        IWARP_CLOSED_BY_PEER = 6,
        IWARP_PLACED = 7,
        IWARP_BUFFERED = 8,
        IWARP_REQUESTED = 9,
        IWARP_PASSED = 10,
        IWARP_RECEIVED = 11,
        IWARP_TERMINATED = 12,
        IWARP_FAULT = 13,
        IWARP_TRIED = 14,
        IWARP_ABOVE_MARK = 1,
        IWARP_HAS_SHARE = 1,
        IWARP_HAS_MARK = 2,
        IWARP_MESSAGE_WRITE = 1,
        IWARP_MESSAGE_SEND = 2,
        IWARP_MESSAGE_READ = 3,
        IWARP_BAD_KEY = 1,
        IWARP_BAD_REVISION = 2,
        IWARP_BAD_LENGTH = 3,
        IWARP_REJECTED = 4,
        IWARP_NOTHING = 0,
        IWARP_FRAME = 1,
        IWARP_FETCHED = 2,
        IWARP_DENIED = 3,
        IWARP_FILL_ALL = 0,
        IWARP_FILL_MORE = 1,
        IWARP_FILL_DENIED = 2,
        IWARP_LAYER_RDMAP = 0,
        IWARP_LAYER_DDP = 1,
        IWARP_LAYER_MPA = 2,
        IWARP_RDMAP_CATASTROPHIC = 0,
        IWARP_RDMAP_PROTECTION = 1,
        IWARP_RDMAP_OPERATION = 2,
        IWARP_RDMAP_INVALID_STAG = 0,
        IWARP_RDMAP_BOUNDS = 1,
        IWARP_RDMAP_RIGHTS = 2,
        IWARP_RDMAP_NOT_ASSOCIATED = 3,
        IWARP_RDMAP_TO_WRAP = 4,
        IWARP_RDMAP_VERSION = 5,
        IWARP_RDMAP_UNEXPECTED = 6,
        IWARP_RDMAP_STREAM_CATASTROPHIC = 7,
        IWARP_RDMAP_GLOBAL_CATASTROPHIC = 8,
        IWARP_RDMAP_CANNOT_INVALIDATE = 9,
        IWARP_RDMAP_UNSPECIFIED = 255,
        IWARP_DDP_CATASTROPHIC = 0,
        IWARP_DDP_TAGGED = 1,
        IWARP_DDP_UNTAGGED = 2,
        IWARP_TAGGED_INVALID_STAG = 0,
        IWARP_TAGGED_BOUNDS = 1,
        IWARP_TAGGED_NOT_ASSOCIATED = 2,
        IWARP_TAGGED_TO_WRAP = 3,
        IWARP_TAGGED_VERSION = 4,
        IWARP_UNTAGGED_INVALID_QN = 1,
        IWARP_UNTAGGED_NO_BUFFER = 2,
        IWARP_UNTAGGED_MSN_RANGE = 3,
        IWARP_UNTAGGED_INVALID_MO = 4,
        IWARP_UNTAGGED_TOO_LONG = 5,
        IWARP_UNTAGGED_VERSION = 6,
        IWARP_MPA_ERROR = 0,
        IWARP_MPA_CONNECTION_LOST = 1,
        IWARP_MPA_CRC_MISMATCH = 2,
        IWARP_MPA_MARKER_MISMATCH = 3,
        IWARP_MPA_INVALID_FRAME = 4,
        IWARP_MPA_CATASTROPHIC = 5,
        IWARP_MPA_INSUFFICIENT_IRD = 6,
        IWARP_MPA_NO_MATCHING_RTR = 7,
    }
}

structs! {
    /// An endpoint, or none.
    struct iwarp {
        at: *mut c_void,
    }

    /// Octets that the library allocates, or none.
    struct iwarp_buffer {
        at: *mut c_void,
    }

    /// Memory that the program keeps, or none.
    struct iwarp_memory {
        at: *mut u8,
        len: usize,
    }

    /// The facts of a region.
    #[derive(Default)]
    struct iwarp_facts {
        base: u64,
        len: u64,
        rights: u32,
        valid: u32,
        limited: u32,
        stream: u32,
    }

    /// What the peer told in its start-up frame.
    #[derive(Default)]
    struct iwarp_told {
        revision: u32,
        markers: u32,
        crc: u32,
        has_word: u32,
        ird: u32,
        ord: u32,
        peer_to_peer: u32,
        rtr_send: u32,
        rtr_write: u32,
        rtr_read: u32,
    }

    /// The facts of a region, in a struct that can grow.
    #[derive(Default)]
    struct iwarp_region {
        size: usize,
        facts: iwarp_facts,
        reserved: [u64; 4],
    }

    /// What the peer told in its start-up frame, in a struct that can grow.
    #[derive(Default)]
    struct iwarp_peer {
        size: usize,
        told: iwarp_told,
        reserved: [u64; 4],
    }

    /// How a handle is opened.
    #[derive(Default)]
    struct iwarp_options {
        size: usize,
        flags: u64,
        reserved: [u64; 4],
    }

    /// A message to post.
    #[derive(Default)]
    struct iwarp_posting {
        size: usize,
        kind: u32,
        stag: u32,
        sink: u32,
        len: u32,
        flags: u64,
        to: u64,
        sink_to: u64,
        token: u64,
        reserved: [u64; 4],
    }

    /// A region to register.
    #[derive(Default)]
    struct iwarp_registration {
        size: usize,
        flags: u64,
        base: u64,
        rights: u32,
        pd: u32,
        stream: u32,
        drawn: u32,
        reserved: [u64; 4],
    }

    /// What a step of work did.
    #[derive(Default)]
    struct iwarp_event {
        kind: u32,
        message: u32,
        right: u32,
        flags: u32,
        stag: u32,
        msn: u32,
        mo: u32,
        layer: u32,
        error: u32,
        code: u32,
        to: u64,
        len: u64,
        token: u64,
        reserved: [u64; 4],
    }

    /// How many buffers of its domain's pool a stream may take, and from how many on it is told.
    #[derive(Default)]
    struct iwarp_limits {
        size: usize,
        share: usize,
        mark: usize,
        flags: u64,
        reserved: [u64; 4],
    }

    /// What an emission gave.
    #[derive(Default)]
    struct iwarp_emission {
        kind: u32,
        stag: u32,
        layer: u32,
        error: u32,
        code: u32,
        spare: u32,
        from: u64,
        to: u64,
        n: u64,
        reserved: [u64; 4],
    }

    /// Where a call of `iwarp_fill` stopped.
    #[derive(Default)]
    struct iwarp_filling {
        kind: u32,
        layer: u32,
        error: u32,
        code: u32,
        frames: u64,
        n: u64,
        reserved: [u64; 4],
    }

    /// How far a stream is.
    #[derive(Default)]
    struct iwarp_progress {
        sent: u64,
        in_order: u64,
        due: u64,
        bound: u64,
        dropped: u64,
        tried: u64,
        reserved: [u64; 1],
    }
}

functions! {
    fn iwarp_text_at(code: i32, text: *mut *const c_char);
    fn iwarp_version() -> u32;
    fn iwarp_new(handle: *mut iwarp) -> i32;
    fn iwarp_new_with(handle: *mut iwarp, options: *const iwarp_options) -> i32;
    fn iwarp_free(handle: *mut iwarp);
    fn iwarp_add_domain(handle: *mut iwarp, pd: u32) -> i32;
    fn iwarp_buffer_new(n: usize, buffer: *mut iwarp_buffer) -> i32;
    fn iwarp_buffer_free(buffer: *mut iwarp_buffer);
    fn iwarp_buffer_at(buffer: *mut iwarp_buffer, at: *mut *mut u8, n: *mut usize) -> i32;
    fn iwarp_buffer_truncate(buffer: *mut iwarp_buffer, n: usize) -> i32;
    fn iwarp_buffer_drop_front(buffer: *mut iwarp_buffer, n: usize) -> i32;
    fn iwarp_register(
        handle: *mut iwarp,
        pd: u32,
        base: u64,
        octets: *const u8,
        n: usize,
        rights: u32,
        stag: *mut u32,
    ) -> i32;
    fn iwarp_deregister(handle: *mut iwarp, stag: u32, out: *mut u8, room: usize, n: *mut usize) -> i32;
    fn iwarp_register_buffer(
        handle: *mut iwarp,
        pd: u32,
        base: u64,
        buffer: *mut iwarp_buffer,
        rights: u32,
        stag: *mut u32,
    ) -> i32;
    fn iwarp_register_for(
        handle: *mut iwarp,
        stream: u32,
        base: u64,
        octets: *const u8,
        n: usize,
        rights: u32,
        stag: *mut u32,
    ) -> i32;
    fn iwarp_register_buffer_for(
        handle: *mut iwarp,
        stream: u32,
        base: u64,
        buffer: *mut iwarp_buffer,
        rights: u32,
        stag: *mut u32,
    ) -> i32;
    fn iwarp_register_as(
        handle: *mut iwarp,
        registration: *const iwarp_registration,
        octets: *const u8,
        n: usize,
        stag: *mut u32,
    ) -> i32;
    fn iwarp_register_buffer_as(
        handle: *mut iwarp,
        registration: *const iwarp_registration,
        buffer: *mut iwarp_buffer,
        stag: *mut u32,
    ) -> i32;
    fn iwarp_register_memory(
        handle: *mut iwarp,
        registration: *const iwarp_registration,
        memory: *mut iwarp_memory,
        stag: *mut u32,
    ) -> i32;
    fn iwarp_deregister_memory(handle: *mut iwarp, stag: u32, memory: *mut iwarp_memory) -> i32;
    fn iwarp_deregister_buffer(handle: *mut iwarp, stag: u32, buffer: *mut iwarp_buffer) -> i32;
    fn iwarp_drop_region(handle: *mut iwarp, stag: u32) -> i32;
    fn iwarp_region_at(handle: *mut iwarp, stag: u32, at: *mut *mut u8, n: *mut usize) -> i32;
    fn iwarp_invalidate(handle: *mut iwarp, stag: u32) -> i32;
    fn iwarp_store(handle: *mut iwarp, stag: u32, to: u64, octets: *const u8, n: usize) -> i32;
    fn iwarp_load(handle: *mut iwarp, stag: u32, to: u64, out: *mut u8, n: usize) -> i32;
    fn iwarp_facts(handle: *mut iwarp, stag: u32, facts: *mut iwarp_facts) -> i32;
    fn iwarp_region_facts(handle: *mut iwarp, stag: u32, region: *mut iwarp_region) -> i32;
    fn iwarp_open(
        handle: *mut iwarp,
        stream: u32,
        pd: u32,
        role: u32,
        options: u32,
        private_data: *const u8,
        n: usize,
    ) -> i32;
    fn iwarp_open_next(
        handle: *mut iwarp,
        pd: u32,
        role: u32,
        options: u32,
        private_data: *const u8,
        n: usize,
        stream: *mut u32,
    ) -> i32;
    fn iwarp_accept(handle: *mut iwarp, stream: u32, private_data: *const u8, n: usize, agreed: *mut u32) -> i32;
    fn iwarp_reject(handle: *mut iwarp, stream: u32, private_data: *const u8, n: usize) -> i32;
    fn iwarp_private(handle: *mut iwarp, stream: u32, out: *mut u8, room: usize, n: *mut usize) -> i32;
    fn iwarp_told(handle: *mut iwarp, stream: u32, told: *mut iwarp_told) -> i32;
    fn iwarp_peer_facts(handle: *mut iwarp, stream: u32, peer: *mut iwarp_peer) -> i32;
    fn iwarp_state(handle: *mut iwarp, stream: u32, state: *mut u32) -> i32;
    fn iwarp_break(handle: *mut iwarp, stream: u32) -> i32;
    fn iwarp_close(handle: *mut iwarp, stream: u32) -> i32;
    fn iwarp_set_mulpdu(handle: *mut iwarp, stream: u32, size: u32) -> i32;
    fn iwarp_post_send(
        handle: *mut iwarp,
        stream: u32,
        octets: *const u8,
        n: usize,
        flags: u32,
        stag: u32,
        token: u64,
    ) -> i32;
    fn iwarp_post_write(
        handle: *mut iwarp,
        stream: u32,
        stag: u32,
        to: u64,
        octets: *const u8,
        n: usize,
        token: u64,
    ) -> i32;
    fn iwarp_post_send_buffer(
        handle: *mut iwarp,
        stream: u32,
        buffer: *mut iwarp_buffer,
        flags: u32,
        stag: u32,
        token: u64,
    ) -> i32;
    fn iwarp_post_write_buffer(
        handle: *mut iwarp,
        stream: u32,
        stag: u32,
        to: u64,
        buffer: *mut iwarp_buffer,
        token: u64,
    ) -> i32;
    fn iwarp_post_read(
        handle: *mut iwarp,
        stream: u32,
        sink: u32,
        sink_to: u64,
        size: u32,
        source: u32,
        source_to: u64,
        token: u64,
    ) -> i32;
    fn iwarp_post(
        handle: *mut iwarp,
        stream: u32,
        posting: *const iwarp_posting,
        octets: *const u8,
        n: usize,
    ) -> i32;
    fn iwarp_post_buffer(
        handle: *mut iwarp,
        stream: u32,
        posting: *const iwarp_posting,
        buffer: *mut iwarp_buffer,
    ) -> i32;
    fn iwarp_post_memory(
        handle: *mut iwarp,
        stream: u32,
        posting: *const iwarp_posting,
        memory: *mut iwarp_memory,
    ) -> i32;
    fn iwarp_post_recv(handle: *mut iwarp, stream: u32, n: usize) -> i32;
    fn iwarp_post_recv_buffer(handle: *mut iwarp, stream: u32, buffer: *mut iwarp_buffer) -> i32;
    fn iwarp_share(handle: *mut iwarp, pd: u32) -> i32;
    fn iwarp_post_shared(handle: *mut iwarp, pd: u32, n: usize) -> i32;
    fn iwarp_post_shared_buffer(handle: *mut iwarp, pd: u32, buffer: *mut iwarp_buffer) -> i32;
    fn iwarp_take_shared_buffer(handle: *mut iwarp, pd: u32, buffer: *mut iwarp_buffer, found: *mut u32) -> i32;
    fn iwarp_open_shared(
        handle: *mut iwarp,
        stream: u32,
        pd: u32,
        role: u32,
        options: u32,
        private_data: *const u8,
        n: usize,
    ) -> i32;
    fn iwarp_open_shared_next(
        handle: *mut iwarp,
        pd: u32,
        role: u32,
        options: u32,
        private_data: *const u8,
        n: usize,
        stream: *mut u32,
    ) -> i32;
    fn iwarp_first_number(handle: *mut iwarp, stream: u32, number: u32) -> i32;
    fn iwarp_deliver(
        handle: *mut iwarp,
        stream: u32,
        number: u32,
        octets: *const u8,
        n: usize,
        kept: *mut u32,
    ) -> i32;
    fn iwarp_room(handle: *mut iwarp, stream: u32, want: usize, at: *mut *mut u8, n: *mut usize) -> i32;
    fn iwarp_came(handle: *mut iwarp, stream: u32, n: usize) -> i32;
    fn iwarp_work(handle: *mut iwarp, stream: u32, event: *mut iwarp_event) -> i32;
    fn iwarp_work_on(handle: *mut iwarp, stream: u32, event: *mut iwarp_event) -> i32;
    fn iwarp_work_within(handle: *mut iwarp, stream: u32, share: usize, event: *mut iwarp_event) -> i32;
    fn iwarp_work_marked(
        handle: *mut iwarp,
        stream: u32,
        limits: *const iwarp_limits,
        event: *mut iwarp_event,
    ) -> i32;
    fn iwarp_fetch(handle: *mut iwarp, stream: u32, out: *mut u8, room: usize, n: *mut usize) -> i32;
    fn iwarp_fetch_buffer(handle: *mut iwarp, stream: u32, buffer: *mut iwarp_buffer, n: *mut usize) -> i32;
    fn iwarp_fetch_sent(handle: *mut iwarp, stream: u32, buffer: *mut iwarp_buffer) -> i32;
    fn iwarp_emit(
        handle: *mut iwarp,
        stream: u32,
        out: *mut u8,
        room: usize,
        n: *mut usize,
        emission: *mut iwarp_emission,
    ) -> i32;
    fn iwarp_emit_onto(
        handle: *mut iwarp,
        stream: u32,
        buffer: *mut iwarp_buffer,
        emission: *mut iwarp_emission,
    ) -> i32;
    fn iwarp_fill(
        handle: *mut iwarp,
        stream: u32,
        most: usize,
        buffer: *mut iwarp_buffer,
        filling: *mut iwarp_filling,
    ) -> i32;
    fn iwarp_wants_write(handle: *mut iwarp, stream: u32, wants: *mut u32) -> i32;
    fn iwarp_progress(handle: *mut iwarp, stream: u32, progress: *mut iwarp_progress) -> i32;
    fn iwarp_fault_text_at(layer: u32, error: u32, code: u32, text: *mut *const c_char);
}

#[cfg(test)]
#[path = "raw_tests.rs"]
mod tests;
