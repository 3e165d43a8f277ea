//! include/dwaebinam.h for Rust: each call takes its buffers as slices. A slice is good for its length, and two mutable ones cannot
//! overlap another, so what the header asks of the caller holds by the types here.

mod header {
    extern "C" {
        pub fn dwb_version() -> u32;
        pub fn dwb_least_length(need: usize) -> usize;
        pub fn dwb_open(record: *mut u8, record_bytes: usize, own: u8, first: u32, second: u32, reading: u32) -> u8;
        pub fn dwb_frame(
            record: *mut u8,
            record_bytes: usize,
            id: u32,
            bytes: *const u8,
            bytes_len: usize,
            store: *mut u8,
            store_bytes: usize,
            answer: *mut u8,
            answer_bytes: usize,
        ) -> u8;
        pub fn dwb_reading(
            record: *mut u8,
            record_bytes: usize,
            reading: u32,
            store: *const u8,
            store_bytes: usize,
            answers: *mut u8,
            answers_bytes: usize,
        ) -> u8;
        pub fn dwb_message(
            answer: *const u8,
            answer_bytes: usize,
            store: *const u8,
            store_bytes: usize,
            out: *mut u8,
            out_bytes: usize,
        ) -> usize;
        pub fn dwb_missing(record: *const u8, record_bytes: usize, sa: u8, da: u8, session: u8) -> usize;
        pub fn dwb_sender_open(sender: *mut u8, sender_bytes: usize, own: u8, limit: u32, reading: u32) -> u8;
        pub fn dwb_announce(
            sender: *mut u8,
            sender_bytes: usize,
            da: u8,
            session: u8,
            pgn: u32,
            message: *const u8,
            message_bytes: usize,
            frame: *mut u8,
            frame_bytes: usize,
            answer: *mut u8,
            answer_bytes: usize,
        ) -> u8;
        pub fn dwb_next_frame(
            sender: *mut u8,
            sender_bytes: usize,
            da: u8,
            session: u8,
            message: *const u8,
            message_bytes: usize,
            frame: *mut u8,
            frame_bytes: usize,
            answer: *mut u8,
            answer_bytes: usize,
        ) -> u8;
        pub fn dwb_sender_frame(
            sender: *mut u8,
            sender_bytes: usize,
            id: u32,
            bytes: *const u8,
            bytes_len: usize,
            answer: *mut u8,
            answer_bytes: usize,
        ) -> u8;
        pub fn dwb_sender_reading(
            sender: *mut u8,
            sender_bytes: usize,
            reading: u32,
            answers: *mut u8,
            answers_bytes: usize,
        ) -> u8;
        pub fn dwb_node_frame(
            record: *mut u8,
            record_bytes: usize,
            id: u32,
            bytes: *const u8,
            bytes_len: usize,
            store: *mut u8,
            store_bytes: usize,
            sender: *mut u8,
            sender_bytes: usize,
            answer: *mut u8,
            answer_bytes: usize,
        ) -> u8;
        pub fn dwb_groups(bytes: *const u8, bytes_len: usize, groups: *mut u32, groups_words: usize) -> usize;
        pub fn dwb_pack(
            services: *const u8,
            services_len: usize,
            formats: *const u8,
            formats_len: usize,
            pgns: *const u32,
            pgns_len: usize,
            lengths: *const u8,
            lengths_len: usize,
            trailer_lengths: *const u8,
            trailer_lengths_len: usize,
            data: *const u8,
            data_bytes: usize,
            trailers: *const u8,
            trailers_bytes: usize,
            out: *mut u8,
            out_bytes: usize,
        ) -> usize;
    }
}

/// DWB_VERSION of the header that these declarations are of.
pub const VERSION: u32 = 5;

pub fn version() -> u32 {
    unsafe { header::dwb_version() }
}

pub fn least_length(need: usize) -> usize {
    unsafe { header::dwb_least_length(need) }
}

pub fn open(record: &mut [u8], own: u8, first: u32, second: u32, reading: u32) -> u8 {
    unsafe { header::dwb_open(record.as_mut_ptr(), record.len(), own, first, second, reading) }
}

pub fn frame(record: &mut [u8], id: u32, bytes: &[u8], store: &mut [u8], answer: &mut [u8]) -> u8 {
    unsafe {
        header::dwb_frame(
            record.as_mut_ptr(),
            record.len(),
            id,
            bytes.as_ptr(),
            bytes.len(),
            store.as_mut_ptr(),
            store.len(),
            answer.as_mut_ptr(),
            answer.len(),
        )
    }
}

pub fn reading(record: &mut [u8], reading: u32, store: &[u8], answers: &mut [u8]) -> u8 {
    unsafe {
        header::dwb_reading(
            record.as_mut_ptr(),
            record.len(),
            reading,
            store.as_ptr(),
            store.len(),
            answers.as_mut_ptr(),
            answers.len(),
        )
    }
}

pub fn message(answer: &[u8], store: &[u8], out: &mut [u8]) -> usize {
    unsafe {
        header::dwb_message(answer.as_ptr(), answer.len(), store.as_ptr(), store.len(), out.as_mut_ptr(), out.len())
    }
}

pub fn missing(record: &[u8], sa: u8, da: u8, session: u8) -> usize {
    unsafe { header::dwb_missing(record.as_ptr(), record.len(), sa, da, session) }
}

pub fn sender_open(sender: &mut [u8], own: u8, limit: u32, reading: u32) -> u8 {
    unsafe { header::dwb_sender_open(sender.as_mut_ptr(), sender.len(), own, limit, reading) }
}

pub fn announce(
    sender: &mut [u8],
    da: u8,
    session: u8,
    pgn: u32,
    message: &[u8],
    frame: &mut [u8],
    answer: &mut [u8],
) -> u8 {
    unsafe {
        header::dwb_announce(
            sender.as_mut_ptr(),
            sender.len(),
            da,
            session,
            pgn,
            message.as_ptr(),
            message.len(),
            frame.as_mut_ptr(),
            frame.len(),
            answer.as_mut_ptr(),
            answer.len(),
        )
    }
}

pub fn next_frame(sender: &mut [u8], da: u8, session: u8, message: &[u8], frame: &mut [u8], answer: &mut [u8]) -> u8 {
    unsafe {
        header::dwb_next_frame(
            sender.as_mut_ptr(),
            sender.len(),
            da,
            session,
            message.as_ptr(),
            message.len(),
            frame.as_mut_ptr(),
            frame.len(),
            answer.as_mut_ptr(),
            answer.len(),
        )
    }
}

pub fn sender_frame(sender: &mut [u8], id: u32, bytes: &[u8], answer: &mut [u8]) -> u8 {
    unsafe {
        header::dwb_sender_frame(
            sender.as_mut_ptr(),
            sender.len(),
            id,
            bytes.as_ptr(),
            bytes.len(),
            answer.as_mut_ptr(),
            answer.len(),
        )
    }
}

pub fn sender_reading(sender: &mut [u8], reading: u32, answers: &mut [u8]) -> u8 {
    unsafe {
        header::dwb_sender_reading(sender.as_mut_ptr(), sender.len(), reading, answers.as_mut_ptr(), answers.len())
    }
}

pub fn node_frame(
    record: &mut [u8],
    id: u32,
    bytes: &[u8],
    store: &mut [u8],
    sender: &mut [u8],
    answer: &mut [u8],
) -> u8 {
    unsafe {
        header::dwb_node_frame(
            record.as_mut_ptr(),
            record.len(),
            id,
            bytes.as_ptr(),
            bytes.len(),
            store.as_mut_ptr(),
            store.len(),
            sender.as_mut_ptr(),
            sender.len(),
            answer.as_mut_ptr(),
            answer.len(),
        )
    }
}

pub fn groups(bytes: &[u8], groups: &mut [u32]) -> usize {
    unsafe { header::dwb_groups(bytes.as_ptr(), bytes.len(), groups.as_mut_ptr(), groups.len()) }
}

#[allow(clippy::too_many_arguments)]
pub fn pack(
    services: &[u8],
    formats: &[u8],
    pgns: &[u32],
    lengths: &[u8],
    trailer_lengths: &[u8],
    data: &[u8],
    trailers: &[u8],
    out: &mut [u8],
) -> usize {
    unsafe {
        header::dwb_pack(
            services.as_ptr(),
            services.len(),
            formats.as_ptr(),
            formats.len(),
            pgns.as_ptr(),
            pgns.len(),
            lengths.as_ptr(),
            lengths.len(),
            trailer_lengths.as_ptr(),
            trailer_lengths.len(),
            data.as_ptr(),
            data.len(),
            trailers.as_ptr(),
            trailers.len(),
            out.as_mut_ptr(),
            out.len(),
        )
    }
}
