//! The library's functions: their declarations, and a call of each with slices. All unsafe code is
//! here.
#![allow(unsafe_code)]

extern "C" {
    fn sflow4_read(
        octets: *const u8,
        octets_length: usize,
        out: *mut u64,
        out_length: usize,
    ) -> u32;
    fn sflow4_sample(
        octets: *const u8,
        octets_length: usize,
        at: usize,
        out: *mut u64,
        out_length: usize,
    ) -> u32;
    fn sflow4_extended(
        octets: *const u8,
        octets_length: usize,
        at: usize,
        out: *mut u64,
        out_length: usize,
    ) -> u32;
    fn sflow4_segment(
        octets: *const u8,
        octets_length: usize,
        at: usize,
        out: *mut u64,
        out_length: usize,
    ) -> u32;
    fn sflow4_start(
        buffer: *mut u8,
        buffer_length: usize,
        limit: usize,
        agent_type: u32,
        a: u32,
        b: u32,
        c: u32,
        d: u32,
        sequence_number: u32,
        uptime: u32,
        out: *mut u64,
        out_length: usize,
    ) -> u32;
    fn sflow4_append(
        buffer: *mut u8,
        buffer_length: usize,
        limit: usize,
        length: usize,
        sample: *const u8,
        sample_length: usize,
        out: *mut u64,
        out_length: usize,
    ) -> u32;
    fn sflow4_append_header(
        buffer: *mut u8,
        buffer_length: usize,
        limit: usize,
        length: usize,
        words: *const u32,
        words_length: usize,
        protocol: u32,
        frame_length: u32,
        header: *const u8,
        header_length: usize,
        entries: *const u8,
        entries_length: usize,
        out: *mut u64,
        out_length: usize,
    ) -> u32;
    fn sflow4_append_ipv4(
        buffer: *mut u8,
        buffer_length: usize,
        limit: usize,
        length: usize,
        words: *const u32,
        words_length: usize,
        packet: *const u32,
        packet_length: usize,
        entries: *const u8,
        entries_length: usize,
        out: *mut u64,
        out_length: usize,
    ) -> u32;
    fn sflow4_append_ipv6(
        buffer: *mut u8,
        buffer_length: usize,
        limit: usize,
        length: usize,
        words: *const u32,
        words_length: usize,
        packet: *const u32,
        packet_length: usize,
        entries: *const u8,
        entries_length: usize,
        out: *mut u64,
        out_length: usize,
    ) -> u32;
    fn sflow4_append_counters(
        buffer: *mut u8,
        buffer_length: usize,
        limit: usize,
        length: usize,
        sequence_number: u32,
        source_id: u32,
        interval: u32,
        version: u32,
        numbers: *const u64,
        numbers_length: usize,
        out: *mut u64,
        out_length: usize,
    ) -> u32;
    fn sflow4_write(
        kind: u32,
        words: *const u32,
        words_length: usize,
        first: *const u8,
        first_length: usize,
        second: *const u8,
        second_length: usize,
        buffer: *mut u8,
        buffer_length: usize,
        out: *mut u64,
        out_length: usize,
    ) -> u32;
    fn sflow4_write_counters(
        sequence_number: u32,
        source_id: u32,
        interval: u32,
        version: u32,
        numbers: *const u64,
        numbers_length: usize,
        buffer: *mut u8,
        buffer_length: usize,
        out: *mut u64,
        out_length: usize,
    ) -> u32;
    fn sflow4_ledger(
        table: *mut u64,
        table_length: usize,
        agent_type: u32,
        a: u32,
        b: u32,
        c: u32,
        d: u32,
        source_id: u32,
        sequence_number: u32,
        sample_pool: u32,
    ) -> u32;
    fn rtfm_check(rules: *const u8, rules_length: usize, out: *mut u64, out_length: usize) -> u32;
    fn rtfm_run(
        rules: *const u8,
        rules_length: usize,
        sample: *const u8,
        sample_length: usize,
        out: *mut u64,
        out_length: usize,
    ) -> u32;
    fn sflow4_lines(
        capture: *const u8,
        capture_length: usize,
        output: *mut u8,
        output_length: usize,
        state: *mut u64,
        state_length: usize,
    ) -> u32;
    fn sflow4_end_lines(
        output: *mut u8,
        output_length: usize,
        offset: u64,
        records: u64,
        refused: u64,
        samples: u64,
        bad: u32,
        out: *mut u64,
        out_length: usize,
    ) -> u32;
}

// SAFETY of every call below: the pointer of a slice is not null and is valid for the slice's
// length, and a `&mut` slice overlaps no other slice. The functions take any octets and numbers;
// they read and write within the lengths and keep no pointer.

pub(crate) fn read(octets: &[u8], out: &mut [u64]) -> u32 {
    unsafe { sflow4_read(octets.as_ptr(), octets.len(), out.as_mut_ptr(), out.len()) }
}

pub(crate) fn sample(octets: &[u8], at: usize, out: &mut [u64]) -> u32 {
    unsafe {
        sflow4_sample(
            octets.as_ptr(),
            octets.len(),
            at,
            out.as_mut_ptr(),
            out.len(),
        )
    }
}

pub(crate) fn extended(octets: &[u8], at: usize, out: &mut [u64]) -> u32 {
    unsafe {
        sflow4_extended(
            octets.as_ptr(),
            octets.len(),
            at,
            out.as_mut_ptr(),
            out.len(),
        )
    }
}

pub(crate) fn segment(octets: &[u8], at: usize, out: &mut [u64]) -> u32 {
    unsafe {
        sflow4_segment(
            octets.as_ptr(),
            octets.len(),
            at,
            out.as_mut_ptr(),
            out.len(),
        )
    }
}

/// The agent is its address's type and four words.
pub(crate) fn start(
    buffer: &mut [u8],
    limit: usize,
    agent: (u32, [u32; 4]),
    sequence_number: u32,
    uptime: u32,
    out: &mut [u64],
) -> u32 {
    let (kind, [a, b, c, d]) = agent;
    let (n, room) = (buffer.len(), out.len());
    let (buffer, out) = (buffer.as_mut_ptr(), out.as_mut_ptr());
    unsafe {
        sflow4_start(
            buffer,
            n,
            limit,
            kind,
            a,
            b,
            c,
            d,
            sequence_number,
            uptime,
            out,
            room,
        )
    }
}

pub(crate) fn append(
    buffer: &mut [u8],
    limit: usize,
    length: usize,
    sample: &[u8],
    out: &mut [u64],
) -> u32 {
    let (n, room) = (buffer.len(), out.len());
    let (buffer, out) = (buffer.as_mut_ptr(), out.as_mut_ptr());
    unsafe {
        sflow4_append(
            buffer,
            n,
            limit,
            length,
            sample.as_ptr(),
            sample.len(),
            out,
            room,
        )
    }
}

/// The header is its protocol, frame length and octets.
pub(crate) fn append_header(
    buffer: &mut [u8],
    limit: usize,
    length: usize,
    words: &[u32],
    header: (u32, u32, &[u8]),
    entries: &[u8],
    out: &mut [u64],
) -> u32 {
    let (protocol, frame_length, header) = header;
    unsafe {
        sflow4_append_header(
            buffer.as_mut_ptr(),
            buffer.len(),
            limit,
            length,
            words.as_ptr(),
            words.len(),
            protocol,
            frame_length,
            header.as_ptr(),
            header.len(),
            entries.as_ptr(),
            entries.len(),
            out.as_mut_ptr(),
            out.len(),
        )
    }
}

pub(crate) fn append_ipv4(
    buffer: &mut [u8],
    limit: usize,
    length: usize,
    words: &[u32],
    packet: &[u32],
    entries: &[u8],
    out: &mut [u64],
) -> u32 {
    unsafe {
        sflow4_append_ipv4(
            buffer.as_mut_ptr(),
            buffer.len(),
            limit,
            length,
            words.as_ptr(),
            words.len(),
            packet.as_ptr(),
            packet.len(),
            entries.as_ptr(),
            entries.len(),
            out.as_mut_ptr(),
            out.len(),
        )
    }
}

pub(crate) fn append_ipv6(
    buffer: &mut [u8],
    limit: usize,
    length: usize,
    words: &[u32],
    packet: &[u32],
    entries: &[u8],
    out: &mut [u64],
) -> u32 {
    unsafe {
        sflow4_append_ipv6(
            buffer.as_mut_ptr(),
            buffer.len(),
            limit,
            length,
            words.as_ptr(),
            words.len(),
            packet.as_ptr(),
            packet.len(),
            entries.as_ptr(),
            entries.len(),
            out.as_mut_ptr(),
            out.len(),
        )
    }
}

/// The words are sequence number, source id, interval and version.
pub(crate) fn append_counters(
    buffer: &mut [u8],
    limit: usize,
    length: usize,
    words: [u32; 4],
    numbers: &[u64],
    out: &mut [u64],
) -> u32 {
    let [sequence_number, source_id, interval, version] = words;
    unsafe {
        sflow4_append_counters(
            buffer.as_mut_ptr(),
            buffer.len(),
            limit,
            length,
            sequence_number,
            source_id,
            interval,
            version,
            numbers.as_ptr(),
            numbers.len(),
            out.as_mut_ptr(),
            out.len(),
        )
    }
}

pub(crate) fn write(
    kind: u32,
    words: &[u32],
    first: &[u8],
    second: &[u8],
    buffer: &mut [u8],
    out: &mut [u64],
) -> u32 {
    unsafe {
        sflow4_write(
            kind,
            words.as_ptr(),
            words.len(),
            first.as_ptr(),
            first.len(),
            second.as_ptr(),
            second.len(),
            buffer.as_mut_ptr(),
            buffer.len(),
            out.as_mut_ptr(),
            out.len(),
        )
    }
}

/// The words are sequence number, source id, interval and version.
pub(crate) fn write_counters(
    words: [u32; 4],
    numbers: &[u64],
    buffer: &mut [u8],
    out: &mut [u64],
) -> u32 {
    let [sequence_number, source_id, interval, version] = words;
    let (n, room) = (buffer.len(), out.len());
    let (buffer, out) = (buffer.as_mut_ptr(), out.as_mut_ptr());
    let (first, count) = (numbers.as_ptr(), numbers.len());
    unsafe {
        sflow4_write_counters(
            sequence_number,
            source_id,
            interval,
            version,
            first,
            count,
            buffer,
            n,
            out,
            room,
        )
    }
}

/// The agent is its address's type and four words; the sample its source id, sequence number and
/// sample pool.
pub(crate) fn ledger(table: &mut [u64], agent: (u32, [u32; 4]), sample: [u32; 3]) -> u32 {
    let (kind, [a, b, c, d]) = agent;
    let [source_id, sequence_number, sample_pool] = sample;
    let n = table.len();
    unsafe {
        sflow4_ledger(
            table.as_mut_ptr(),
            n,
            kind,
            a,
            b,
            c,
            d,
            source_id,
            sequence_number,
            sample_pool,
        )
    }
}

pub(crate) fn check(rules: &[u8], out: &mut [u64]) -> u32 {
    unsafe { rtfm_check(rules.as_ptr(), rules.len(), out.as_mut_ptr(), out.len()) }
}

pub(crate) fn run(rules: &[u8], sample: &[u8], out: &mut [u64]) -> u32 {
    let room = out.len();
    unsafe {
        rtfm_run(
            rules.as_ptr(),
            rules.len(),
            sample.as_ptr(),
            sample.len(),
            out.as_mut_ptr(),
            room,
        )
    }
}

pub(crate) fn lines(capture: &[u8], output: &mut [u8], state: &mut [u64]) -> u32 {
    let (n, room) = (state.len(), output.len());
    unsafe {
        sflow4_lines(
            capture.as_ptr(),
            capture.len(),
            output.as_mut_ptr(),
            room,
            state.as_mut_ptr(),
            n,
        )
    }
}

/// The counts are offset, records, refused and samples.
pub(crate) fn end_lines(output: &mut [u8], counts: [u64; 4], bad: u32, out: &mut [u64]) -> u32 {
    let [offset, records, refused, samples] = counts;
    let (n, room) = (output.len(), out.len());
    let (output, out) = (output.as_mut_ptr(), out.as_mut_ptr());
    unsafe { sflow4_end_lines(output, n, offset, records, refused, samples, bad, out, room) }
}
