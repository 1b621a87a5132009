//! The header writer, the block reader and fill removal of libbs_sched_c.a beside the Rust, on random headers, blocks and buffers.
//! usage: headers SEED COUNT
use beside::compare::{arguments, same, Counts};
use beside::headers::{Case, Header, Reply};
use original::random::Random;

#[repr(C)]
struct Read {
    refusal: u8,
    count: u8,
}

#[repr(C)]
struct Written {
    refusal: u8,
    end: u64,
}

#[repr(C)]
struct Fill {
    refusal: u8,
    bits: u64,
}

extern "C" {
    fn bs_sched_read_block(block: *const u8, len: usize, headers: *mut u32, headers_len: usize) -> Read;
    fn bs_sched_write_header(buf: *mut u8, len: usize, at: u64, header: *const u32, header_len: usize) -> Written;
    fn bs_sched_fill_bits(buf: *const u8, len: usize, start: u64, end: u64) -> Fill;
}

/// What the library answers. SAFETY: the buffers are valid for their lengths, and none overlaps another.
fn reply(case: &Case) -> Reply {
    match case {
        Case::Write { header, lent, at, .. } => {
            let mut buf = lent.clone();
            let reply = unsafe { bs_sched_write_header(buf.as_mut_ptr(), buf.len(), *at as u64, header.as_ptr(), header.len()) };
            if reply.refusal == 0 {
                return Reply::Written(reply.end as usize, buf);
            }
            assert!(buf == *lent, "refused, and altered: {case:?}");
            Reply::Refused(reply.refusal)
        }
        Case::Read(block) => {
            let mut words = [0; 16 * 24];
            let reply = unsafe { bs_sched_read_block(block.as_ptr(), block.len(), words.as_mut_ptr(), words.len()) };
            if reply.refusal != 0 {
                return Reply::Refused(reply.refusal);
            }
            let headers = words.chunks(24).map(|h| Header::try_from(h).unwrap());
            Reply::Listed(headers.take(reply.count as usize).collect())
        }
        Case::Fill { octets, start, end } => {
            let reply = unsafe { bs_sched_fill_bits(octets.as_ptr(), octets.len(), *start as u64, *end as u64) };
            if reply.refusal == 0 {
                Reply::Fill(reply.bits as usize)
            } else {
                Reply::Refused(reply.refusal)
            }
        }
    }
}

fn main() {
    let [seed, count] = arguments("headers SEED COUNT");
    println!("headers: seed {seed}, {count} headers, blocks and buffers");
    std::panic::set_hook(Box::new(|_| {}));
    let mut r = Random::new(seed);
    let mut counts = Counts::default();
    let mut listed = 0;
    for n in 0..count {
        let case = Case::draw(&mut r);
        let (rust, what) = case.reply();
        counts.add(what, if let Reply::Refused(number) = rust { number } else { 0 });
        if let Reply::Listed(headers) = &rust {
            listed += headers.len();
        }
        same(&|| format!("seed {seed}, case {n}: {case:?}"), "the answer", rust, reply(&case));
    }
    counts.print();
    println!("  headers in the blocks: {listed}");
    println!("headers: all the same");
}
