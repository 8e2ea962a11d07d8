//! The transforms of perdoaze, for Rust.
//!
//! ```
//! use perdoaze::{Errno, Transform};
//!
//! fn main() -> Result<(), Errno> {
//!     let mut gcm = Transform::new("gcm(aes)")?;
//!     gcm.set_key(b"0123456789abcdef")?;
//!     let mut sealed = [0; 5 + 16];
//!     gcm.encrypt(&[0; 12], b"header", b"hello", &mut sealed)?;
//!     let mut opened = [0; 5];
//!     assert_eq!(gcm.decrypt(&[0; 12], b"header", &sealed, &mut opened)?, 5);
//!     assert_eq!(&opened, b"hello");
//!     Ok(())
//! }
//! ```

use perdoaze_sys as ffi;
use std::ffi::{CStr, CString, c_char, c_int, c_void};
use std::fmt;
use std::io::{IoSlice, IoSliceMut};

/// One of Linux's error numbers.
#[derive(Clone, Copy, Debug, PartialEq, Eq)]
pub struct Errno(pub i32);

impl Errno {
    /// No driver has the name.
    pub const ENOENT: Errno = Errno(2);
    /// Memory is wanting.
    pub const ENOMEM: Errno = Errno(12);
    /// A name, a key, a size or a length isn't taken.
    pub const EINVAL: Errno = Errno(22);
    /// The tag is wrong.
    pub const EBADMSG: Errno = Errno(74);
    /// The answer has no room.
    pub const EOVERFLOW: Errno = Errno(75);
    /// No key was set.
    pub const ENOKEY: Errno = Errno(126);
}

impl fmt::Display for Errno {
    fn fmt(&self, f: &mut fmt::Formatter<'_>) -> fmt::Result {
        let text = unsafe { CStr::from_ptr(ffi::perdoaze_strerror(self.0)) };
        f.write_str(&text.to_string_lossy())
    }
}

impl std::error::Error for Errno {}

fn done(result: c_int) -> Result<(), Errno> {
    if result == 0 { Ok(()) } else { Err(Errno(-result)) }
}

fn text_of(name: &[c_char; 128]) -> &str {
    // it ends by a zero
    unsafe { CStr::from_ptr(name.as_ptr()) }.to_str().unwrap_or("")
}

/// What C is passed for bytes that it reads.
fn at(bytes: &[u8]) -> *const c_void {
    bytes.as_ptr().cast()
}

/// What C is passed for bytes that it writes.
fn at_mut(bytes: &mut [u8]) -> *mut c_void {
    bytes.as_mut_ptr().cast()
}

/// What C is passed for pieces: an `IoSlice` is a `struct iovec`.
fn pieces(text: &[IoSlice<'_>]) -> *const ffi::Iovec {
    text.as_ptr().cast()
}

/// The same of pieces whose bytes it writes.
fn pieces_mut(buffer: &mut [IoSliceMut<'_>]) -> *const ffi::Iovec {
    buffer.as_mut_ptr().cast()
}

/// What is told of a transform, as /proc/crypto does.
#[derive(Clone)]
pub struct Info(ffi::Info);

impl Info {
    pub fn name(&self) -> &str {
        text_of(&self.0.name)
    }

    pub fn driver(&self) -> &str {
        text_of(&self.0.driver)
    }

    /// The numbers.
    pub fn numbers(&self) -> &ffi::Info {
        &self.0
    }
}

/// What is told of every driver.
pub fn list() -> impl Iterator<Item = Info> {
    (0..).map_while(|index| {
        let mut info = ffi::PERDOAZE_INFO;
        done(unsafe { ffi::perdoaze_list(index, &mut info) }).ok()?;
        Some(Info(info))
    })
}

/// What [`Transform::encrypt_in_place`] takes.
pub struct Request<'a> {
    pub iv: &'a [u8],
    pub aad: &'a [u8],
    pub buffer: &'a mut [u8],
    pub n: usize,
}

/// An algorithm, maybe with a key. Its calls take `&mut self`, since two on one transform may not run at a time; a thread takes a
/// second one by [`Transform::duplicate`], which shares the key.
pub struct Transform(ffi::Perdoaze);

// What it holds is `Send`: `perdoaze_calls::laws` has the proof.
unsafe impl Send for Transform {}

impl Transform {
    /// The transform of the name of an algorithm or of a driver.
    pub fn new(name: &str) -> Result<Transform, Errno> {
        let name = CString::new(name).map_err(|_| Errno::EINVAL)?;
        let mut made = Transform(ffi::PERDOAZE_NONE);
        done(unsafe { ffi::perdoaze_init(&mut made.0, name.as_ptr()) })?;
        Ok(made)
    }

    /// A second transform, which shares the key.
    pub fn duplicate(&mut self) -> Result<Transform, Errno> {
        let mut made = Transform(ffi::PERDOAZE_NONE);
        done(unsafe { ffi::perdoaze_dup(&mut self.0, &mut made.0) })?;
        Ok(made)
    }

    pub fn info(&mut self) -> Result<Info, Errno> {
        let mut info = ffi::PERDOAZE_INFO;
        done(unsafe { ffi::perdoaze_get_info(&mut self.0, &mut info) })?;
        Ok(Info(info))
    }

    pub fn set_key(&mut self, key: &[u8]) -> Result<(), Errno> {
        done(unsafe { ffi::perdoaze_setkey(&mut self.0, at(key), key.len()) })
    }

    /// Sets the tag size in bytes.
    pub fn set_tag_size(&mut self, size: u32) -> Result<(), Errno> {
        done(unsafe { ffi::perdoaze_setauthsize(&mut self.0, size) })
    }

    /// How many bytes a text of `n` bytes has when it is encrypted, with its tag.
    pub fn encrypted_len(&mut self, n: usize) -> Result<usize, Errno> {
        let mut len = 0;
        done(unsafe { ffi::perdoaze_outlen(&mut self.0, ffi::PERDOAZE_ENCRYPT, n, &mut len) })?;
        Ok(len)
    }

    /// Encrypts into the front of `out`, and gives how many bytes. With a tag, it stands behind the ciphertext.
    pub fn encrypt(&mut self, iv: &[u8], aad: &[u8], text: &[u8], out: &mut [u8]) -> Result<usize, Errno> {
        let mut n = 0;
        done(unsafe {
            ffi::perdoaze_encrypt(
                &mut self.0,
                at(iv),
                iv.len(),
                at(aad),
                aad.len(),
                at(text),
                text.len(),
                at_mut(out),
                out.len(),
                &mut n,
            )
        })?;
        Ok(n)
    }

    /// Decrypts into the front of `out`, and gives how many bytes. `EBADMSG` where the tag is wrong: `out` has no plaintext then.
    pub fn decrypt(&mut self, iv: &[u8], aad: &[u8], text: &[u8], out: &mut [u8]) -> Result<usize, Errno> {
        let mut n = 0;
        done(unsafe {
            ffi::perdoaze_decrypt(
                &mut self.0,
                at(iv),
                iv.len(),
                at(aad),
                aad.len(),
                at(text),
                text.len(),
                at_mut(out),
                out.len(),
                &mut n,
            )
        })?;
        Ok(n)
    }

    /// Encrypts the first `n` bytes of `buffer` in their place, and gives how many bytes the answer has.
    pub fn encrypt_in_place(&mut self, iv: &[u8], aad: &[u8], buffer: &mut [u8], n: usize) -> Result<usize, Errno> {
        let mut written = 0;
        done(unsafe {
            ffi::perdoaze_encrypt_in_place(
                &mut self.0,
                at(iv),
                iv.len(),
                at(aad),
                aad.len(),
                at_mut(buffer),
                buffer.len(),
                n,
                &mut written,
            )
        })?;
        Ok(written)
    }

    /// Decrypts the first `n` bytes of `buffer` in their place, and gives how many bytes the plaintext has.
    pub fn decrypt_in_place(&mut self, iv: &[u8], aad: &[u8], buffer: &mut [u8], n: usize) -> Result<usize, Errno> {
        let mut written = 0;
        done(unsafe {
            ffi::perdoaze_decrypt_in_place(
                &mut self.0,
                at(iv),
                iv.len(),
                at(aad),
                aad.len(),
                at_mut(buffer),
                buffer.len(),
                n,
                &mut written,
            )
        })?;
        Ok(written)
    }

    /// As [`Transform::encrypt`], of a text in pieces.
    pub fn encrypt_vectored(
        &mut self,
        iv: &[u8],
        aad: &[u8],
        text: &[IoSlice<'_>],
        out: &mut [u8],
    ) -> Result<usize, Errno> {
        let mut n = 0;
        done(unsafe {
            ffi::perdoaze_encryptv(
                &mut self.0,
                at(iv),
                iv.len(),
                at(aad),
                aad.len(),
                pieces(text),
                text.len(),
                at_mut(out),
                out.len(),
                &mut n,
            )
        })?;
        Ok(n)
    }

    /// As [`Transform::decrypt`], of a text in pieces.
    pub fn decrypt_vectored(
        &mut self,
        iv: &[u8],
        aad: &[u8],
        text: &[IoSlice<'_>],
        out: &mut [u8],
    ) -> Result<usize, Errno> {
        let mut n = 0;
        done(unsafe {
            ffi::perdoaze_decryptv(
                &mut self.0,
                at(iv),
                iv.len(),
                at(aad),
                aad.len(),
                pieces(text),
                text.len(),
                at_mut(out),
                out.len(),
                &mut n,
            )
        })?;
        Ok(n)
    }

    /// As [`Transform::encrypt_in_place`], where the buffer lies in pieces. Several of more than 4,160 bytes together are copied to
    /// memory of the heap under XTS and CCM, and where the request isn't taken (`ENOMEM`).
    pub fn encrypt_vectored_in_place(
        &mut self,
        iv: &[u8],
        aad: &[u8],
        buffer: &mut [IoSliceMut<'_>],
        n: usize,
    ) -> Result<usize, Errno> {
        let mut written = 0;
        done(unsafe {
            ffi::perdoaze_encryptv_in_place(
                &mut self.0,
                at(iv),
                iv.len(),
                at(aad),
                aad.len(),
                pieces_mut(buffer),
                buffer.len(),
                n,
                &mut written,
            )
        })?;
        Ok(written)
    }

    /// As [`Transform::decrypt_in_place`], where the buffer lies in pieces. `ENOMEM` as
    /// [`Transform::encrypt_vectored_in_place`] has it.
    pub fn decrypt_vectored_in_place(
        &mut self,
        iv: &[u8],
        aad: &[u8],
        buffer: &mut [IoSliceMut<'_>],
        n: usize,
    ) -> Result<usize, Errno> {
        let mut written = 0;
        done(unsafe {
            ffi::perdoaze_decryptv_in_place(
                &mut self.0,
                at(iv),
                iv.len(),
                at(aad),
                aad.len(),
                pieces_mut(buffer),
                buffer.len(),
                n,
                &mut written,
            )
        })?;
        Ok(written)
    }

    /// As [`Transform::encrypt_in_place`] for each request in turn. Under CBC, and authenc over it, eight at a time are encrypted side by
    /// side.
    pub fn encrypt_many(&mut self, requests: &mut [Request<'_>]) -> Vec<Result<usize, Errno>> {
        let mut asked: Vec<ffi::Request> = requests
            .iter_mut()
            .map(|request| ffi::Request {
                size: size_of::<ffi::Request>(),
                iv: at(request.iv),
                iv_len: request.iv.len(),
                aad: at(request.aad),
                aad_len: request.aad.len(),
                buffer: at_mut(request.buffer),
                buffer_len: request.buffer.len(),
                n: request.n,
                written: 0,
                status: 0,
            })
            .collect();
        // each request's own status tells more than the first that isn't 0
        let _first = unsafe { ffi::perdoaze_encrypt_many(&mut self.0, asked.as_mut_ptr(), asked.len()) };
        asked.iter().map(|one| done(one.status).map(|()| one.written)).collect()
    }

    /// Writes the MAC of `text` to the front of `out`, and gives how many bytes it has.
    pub fn digest(&mut self, text: &[u8], out: &mut [u8]) -> Result<usize, Errno> {
        let mut n = 0;
        done(unsafe {
            ffi::perdoaze_digest(&mut self.0, at(text), text.len(), at_mut(out), out.len(), &mut n)
        })?;
        Ok(n)
    }

    /// As [`Transform::digest`], of a text in pieces, which are read where they lie.
    pub fn digest_vectored(&mut self, text: &[IoSlice<'_>], out: &mut [u8]) -> Result<usize, Errno> {
        let mut n = 0;
        done(unsafe {
            ffi::perdoaze_digestv(&mut self.0, pieces(text), text.len(), at_mut(out), out.len(), &mut n)
        })?;
        Ok(n)
    }
}

/// Whether two texts are the same. Where they are equally long, each byte is looked at.
pub fn equal(a: &[u8], b: &[u8]) -> bool {
    a.len() == b.len() && unsafe { ffi::perdoaze_compare(at(a), at(b), a.len()) } == 0
}

/// Overwrites bytes with zeros, also where they aren't read again.
pub fn wipe(bytes: &mut [u8]) {
    unsafe { ffi::perdoaze_wipe(at_mut(bytes), bytes.len()) }
}

/// Overwrites the stack below the caller's frame, where calls of the library have been.
pub fn wipe_stack() {
    unsafe { ffi::perdoaze_wipe_stack() }
}

impl Drop for Transform {
    fn drop(&mut self) {
        unsafe { ffi::perdoaze_free(&mut self.0) }
    }
}

#[cfg(test)]
mod tests {
    use super::*;

    /// The GCM specification, test case 2, as one value.
    const SEALED: [u8; 32] = *b"\x03\x88\xda\xce\x60\xb6\xa3\x92\xf3\x28\xc2\xb9\x71\xb2\xfe\x78\xab\x6e\x47\xd4\x2c\xec\x13\xbd\xf5\x3a\x67\xb2\x12\x57\xbd\xdf";

    #[test]
    fn gcm_seals_and_opens() {
        let mut gcm = Transform::new("gcm(aes)").unwrap();
        assert_eq!(gcm.encrypt(&[0; 12], &[], &[], &mut []), Err(Errno::ENOKEY));
        gcm.set_key(&[0; 16]).unwrap();
        let mut out = [0; 32];
        assert_eq!(gcm.encrypt(&[0; 12], &[], &[0; 16], &mut out), Ok(32));
        assert_eq!(out, SEALED);
        let mut opened = [9; 16];
        assert_eq!(gcm.decrypt(&[0; 12], &[], &out, &mut opened), Ok(16));
        assert_eq!(opened, [0; 16]);
        out[31] ^= 1;
        assert_eq!(gcm.decrypt_in_place(&[0; 12], &[], &mut out, 32), Err(Errno::EBADMSG));
    }

    #[test]
    fn texts_lie_in_pieces() {
        let mut gcm = Transform::new("gcm(aes)").unwrap();
        gcm.set_key(&[0; 16]).unwrap();
        let pieces = [IoSlice::new(&[0; 5]), IoSlice::new(&[]), IoSlice::new(&[0; 11])];
        let mut out = [0; 32];
        assert_eq!(gcm.encrypt_vectored(&[0; 12], &[], &pieces, &mut out), Ok(32));
        assert_eq!(out, SEALED);
        let (front, back) = SEALED.split_at(20);
        let mut opened = [9; 16];
        let sealed = [IoSlice::new(front), IoSlice::new(back)];
        assert_eq!(gcm.decrypt_vectored(&[0; 12], &[], &sealed, &mut opened), Ok(16));
        assert_eq!(opened, [0; 16]);
        let (mut first, mut second) = ([0; 7], [0; 25]);
        let mut buffer = [IoSliceMut::new(&mut first), IoSliceMut::new(&mut second)];
        assert_eq!(gcm.encrypt_vectored_in_place(&[0; 12], &[], &mut buffer, 16), Ok(32));
        assert_eq!([&buffer[0][..], &buffer[1][..]].concat(), SEALED);
        assert_eq!(gcm.decrypt_vectored_in_place(&[0; 12], &[], &mut buffer, 32), Ok(16));
        assert_eq!([&first[..], &second[..9]].concat(), [0; 16]);
        wipe_stack();
    }

    #[test]
    fn many_are_as_each() {
        let mut cbc = Transform::new("cbc(aes)").unwrap();
        cbc.set_key(&[7; 16]).unwrap();
        let mut buffers = [[5; 48]; 11];
        let mut one = [5; 48];
        assert_eq!(cbc.encrypt_in_place(&[1; 16], &[], &mut one, 48), Ok(48));
        let mut requests: Vec<Request<'_>> =
            buffers.iter_mut().map(|buffer| Request { iv: &[1; 16], aad: &[], buffer, n: 48 }).collect();
        requests[9].iv = &[1; 15];
        let results = cbc.encrypt_many(&mut requests);
        for (at, result) in results.iter().enumerate() {
            assert_eq!(*result, if at == 9 { Err(Errno::EINVAL) } else { Ok(48) });
        }
        for (at, buffer) in buffers.iter().enumerate() {
            assert_eq!(*buffer, if at == 9 { [5; 48] } else { one });
        }
    }

    #[test]
    fn threads_share_a_key() {
        let mut gcm = Transform::new("gcm_base(ctr(aes-lanes),ghash-table)").unwrap();
        gcm.set_key(&[0; 16]).unwrap();
        let mut second = gcm.duplicate().unwrap();
        let other = std::thread::spawn(move || {
            let mut buffer = [0; 32];
            second.encrypt_in_place(&[0; 12], &[], &mut buffer, 16).map(|_| buffer)
        });
        let mut out = [0; 32];
        assert_eq!(gcm.encrypt(&[0; 12], &[], &[0; 16], &mut out), Ok(32));
        assert_eq!(other.join().unwrap(), Ok(out));
    }

    #[test]
    fn sizes_and_secrets() {
        let mut gcm = Transform::new("pcrypt(gcm(aes))").unwrap();
        assert_eq!(gcm.encrypted_len(5), Ok(21));
        gcm.set_tag_size(12).unwrap();
        assert_eq!(gcm.encrypted_len(5), Ok(17));
        assert_eq!(gcm.info().unwrap().numbers().tag_size, 12);
        assert_eq!(Transform::new("gcm\0").err(), Some(Errno::EINVAL));
        assert!(equal(b"same", b"same") && !equal(b"same", b"sane") && !equal(b"same", b"sam"));
        let mut key = [7; 16];
        wipe(&mut key);
        assert_eq!(key, [0; 16]);
        assert_eq!(Errno::EBADMSG.to_string(), "the tag is wrong, or bytes differ");
    }

    /// RFC 4231, test case 1.
    #[test]
    fn hmac_makes_a_mac() {
        let mut hmac = Transform::new("hmac(sha256)").unwrap();
        hmac.set_key(&[0x0b; 20]).unwrap();
        let mut out = [0; 32];
        assert_eq!(hmac.digest(b"Hi There", &mut out), Ok(32));
        assert_eq!(out[..4], [0xb0, 0x34, 0x4c, 0x61]);
        let mut again = [0; 32];
        assert_eq!(hmac.digest_vectored(&[IoSlice::new(b"Hi "), IoSlice::new(b"There")], &mut again), Ok(32));
        assert_eq!(again, out);
        assert_eq!(hmac.encrypt(&[], &[], b"Hi There", &mut out), Err(Errno::EINVAL));
    }

    #[test]
    fn drivers_are_listed() {
        let names: Vec<String> = list().map(|info| info.driver().to_string()).collect();
        assert_eq!(names.len(), 43);
        for name in names {
            assert_eq!(Transform::new(&name).unwrap().info().unwrap().driver(), name);
        }
    }
}
