//! The functions of include/perdoaze.h, as they are: each says there what it takes, and what its errors are. The crate `perdoaze`
//! stands over them, and is safe.

use std::ffi::{c_char, c_int, c_void};

/// A place for a transform: `PERDOAZE_NONE` has none.
#[repr(C)]
pub struct Perdoaze {
    full: bool,
    at: *mut c_void,
}

/// A place that has none.
pub const PERDOAZE_NONE: Perdoaze = Perdoaze { full: false, at: std::ptr::null_mut() };

/// What is told of a transform. `size` is that of this struct.
#[repr(C)]
#[derive(Clone)]
pub struct Info {
    pub size: usize,
    pub name: [c_char; 128],
    pub driver: [c_char; 128],
    pub priority: u32,
    pub kind: u32,
    pub block_size: u32,
    pub iv_size: u32,
    pub max_tag_size: u32,
    pub min_key_size: u32,
    pub max_key_size: u32,
    pub tag_size: u32,
}

/// What an `Info` begins with.
pub const PERDOAZE_INFO: Info = Info {
    size: size_of::<Info>(),
    name: [0; 128],
    driver: [0; 128],
    priority: 0,
    kind: 0,
    block_size: 0,
    iv_size: 0,
    max_tag_size: 0,
    min_key_size: 0,
    max_key_size: 0,
    tag_size: 0,
};

/// A request of `perdoaze_encrypt_many`. `size` is that of this struct.
#[repr(C)]
pub struct Request {
    pub size: usize,
    pub iv: *const c_void,
    pub iv_len: usize,
    pub aad: *const c_void,
    pub aad_len: usize,
    pub buffer: *mut c_void,
    pub buffer_len: usize,
    pub n: usize,
    pub written: usize,
    pub status: c_int,
}

/// POSIX's `struct iovec`.
#[repr(C)]
pub struct Iovec {
    pub base: *mut c_void,
    pub len: usize,
}

pub const PERDOAZE_ENCRYPT: u32 = 1;
pub const PERDOAZE_DECRYPT: u32 = 2;
pub const PERDOAZE_DIGEST: u32 = 3;

unsafe extern "C" {
    pub fn perdoaze_version() -> u32;
    pub fn perdoaze_strerror(result: c_int) -> *const c_char;
    pub fn perdoaze_init(tfm: *mut Perdoaze, name: *const c_char) -> c_int;
    pub fn perdoaze_setkey(tfm: *mut Perdoaze, key: *const c_void, key_len: usize) -> c_int;
    pub fn perdoaze_setauthsize(tfm: *mut Perdoaze, authsize: u32) -> c_int;
    pub fn perdoaze_encrypt(
        tfm: *mut Perdoaze,
        iv: *const c_void,
        iv_len: usize,
        aad: *const c_void,
        aad_len: usize,
        text: *const c_void,
        text_len: usize,
        out: *mut c_void,
        out_len: usize,
        written: *mut usize,
    ) -> c_int;
    pub fn perdoaze_decrypt(
        tfm: *mut Perdoaze,
        iv: *const c_void,
        iv_len: usize,
        aad: *const c_void,
        aad_len: usize,
        text: *const c_void,
        text_len: usize,
        out: *mut c_void,
        out_len: usize,
        written: *mut usize,
    ) -> c_int;
    pub fn perdoaze_encrypt_in_place(
        tfm: *mut Perdoaze,
        iv: *const c_void,
        iv_len: usize,
        aad: *const c_void,
        aad_len: usize,
        buffer: *mut c_void,
        buffer_len: usize,
        n: usize,
        written: *mut usize,
    ) -> c_int;
    pub fn perdoaze_decrypt_in_place(
        tfm: *mut Perdoaze,
        iv: *const c_void,
        iv_len: usize,
        aad: *const c_void,
        aad_len: usize,
        buffer: *mut c_void,
        buffer_len: usize,
        n: usize,
        written: *mut usize,
    ) -> c_int;
    pub fn perdoaze_digest(
        tfm: *mut Perdoaze,
        text: *const c_void,
        text_len: usize,
        out: *mut c_void,
        out_len: usize,
        written: *mut usize,
    ) -> c_int;
    pub fn perdoaze_encryptv(
        tfm: *mut Perdoaze,
        iv: *const c_void,
        iv_len: usize,
        aad: *const c_void,
        aad_len: usize,
        text: *const Iovec,
        pieces: usize,
        out: *mut c_void,
        out_len: usize,
        written: *mut usize,
    ) -> c_int;
    pub fn perdoaze_decryptv(
        tfm: *mut Perdoaze,
        iv: *const c_void,
        iv_len: usize,
        aad: *const c_void,
        aad_len: usize,
        text: *const Iovec,
        pieces: usize,
        out: *mut c_void,
        out_len: usize,
        written: *mut usize,
    ) -> c_int;
    pub fn perdoaze_encryptv_in_place(
        tfm: *mut Perdoaze,
        iv: *const c_void,
        iv_len: usize,
        aad: *const c_void,
        aad_len: usize,
        buffer: *const Iovec,
        pieces: usize,
        n: usize,
        written: *mut usize,
    ) -> c_int;
    pub fn perdoaze_decryptv_in_place(
        tfm: *mut Perdoaze,
        iv: *const c_void,
        iv_len: usize,
        aad: *const c_void,
        aad_len: usize,
        buffer: *const Iovec,
        pieces: usize,
        n: usize,
        written: *mut usize,
    ) -> c_int;
    pub fn perdoaze_encrypt_many(tfm: *mut Perdoaze, requests: *mut Request, count: usize) -> c_int;
    pub fn perdoaze_digestv(
        tfm: *mut Perdoaze,
        text: *const Iovec,
        pieces: usize,
        out: *mut c_void,
        out_len: usize,
        written: *mut usize,
    ) -> c_int;
    pub fn perdoaze_dup(from: *mut Perdoaze, into: *mut Perdoaze) -> c_int;
    pub fn perdoaze_get_info(tfm: *mut Perdoaze, info: *mut Info) -> c_int;
    pub fn perdoaze_list(index: usize, info: *mut Info) -> c_int;
    pub fn perdoaze_outlen(tfm: *mut Perdoaze, what: u32, n: usize, len: *mut usize) -> c_int;
    pub fn perdoaze_free(tfm: *mut Perdoaze);
    pub fn perdoaze_compare(a: *const c_void, b: *const c_void, n: usize) -> c_int;
    pub fn perdoaze_wipe(bytes: *mut c_void, n: usize);
    pub fn perdoaze_wipe_stack();
}
