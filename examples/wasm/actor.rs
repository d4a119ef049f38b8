//! An actor in Rust: its parameters are votes, each a byte; it counts them, and gives the greatest counts with their
//! votes, eight bytes each, in falling order.
//!
//!     rustc --target wasm32-unknown-unknown -O --crate-type cdylib -C panic=abort -o rustc.wasm actor.rs
#![no_std]

mod system {
    #[link(wasm_import_module = "ipld")]
    extern "C" {
        pub fn block_open(handle: u32, out: *mut [u32; 4]) -> u32;
        pub fn block_read(handle: u32, at: u32, offset: *mut u8, size: u32, out: *mut [u32; 4]) -> u32;
        pub fn block_create(out: *mut [u32; 4], codec: u64, at: *const u8, size: u32) -> u32;
    }

    #[link(wasm_import_module = "vm")]
    extern "C" {
        pub fn exit(code: u32, handle: u32, at: *const u8, size: u32);
    }
}

#[panic_handler]
fn panic(_: &core::panic::PanicInfo) -> ! {
    core::arch::wasm32::unreachable()
}

const RAW: u64 = 0x55;

static mut VOTES: [u8; 65_536] = [0; 65_536];

#[derive(Clone, Copy, PartialEq, Eq, PartialOrd, Ord)]
struct Count {
    votes: u32,
    name: u32,
}

fn counts(votes: &[u8]) -> [Count; 256] {
    let mut counts = [Count { votes: 0, name: 0 }; 256];
    for (name, count) in counts.iter_mut().enumerate() {
        count.name = name as u32;
    }
    for vote in votes {
        counts[usize::from(*vote)].votes += 1;
    }
    counts.sort_unstable_by(|one, other| other.cmp(one));
    counts
}

fn fail(code: u32, why: &str) -> u32 {
    // The call does not come back.
    unsafe { system::exit(code, 0, why.as_ptr(), why.len() as u32) };
    0
}

fn answer(counts: &[Count]) -> Option<u32> {
    let mut bytes = [0_u8; 64];
    for (room, count) in bytes.chunks_exact_mut(8).zip(counts) {
        room.copy_from_slice(&(u64::from(count.votes) << 32 | u64::from(count.name)).to_be_bytes());
    }
    let mut out = [0_u32; 4];
    match unsafe { system::block_create(&mut out, RAW, bytes.as_ptr(), 64) } {
        0 => Some(out[0]),
        _ => None,
    }
}

#[no_mangle]
pub extern "C" fn invoke(handle: u32) -> u32 {
    let votes = unsafe { &mut VOTES };
    let mut out = [0_u32; 4];
    if unsafe { system::block_open(handle, &mut out) } != 0 {
        return fail(16, "no such block");
    }
    let size = out[2];
    if size as usize > votes.len() {
        return fail(17, "too many votes");
    }
    if unsafe { system::block_read(handle, 0, votes.as_mut_ptr(), size, &mut out) } != 0 {
        return fail(18, "the votes cannot be read");
    }
    match answer(&counts(&votes[..size as usize])) {
        Some(handle) => handle,
        None => fail(19, "no block for the answer"),
    }
}
