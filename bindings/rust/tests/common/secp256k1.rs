//! Points and ECDSA signatures over secp256k1, by libsecp256k1 (Debian: libsecp256k1-dev).

use std::ffi::c_void;
use std::ptr::null;

#[link(name = "secp256k1")]
extern "C" {
    fn secp256k1_context_create(flags: u32) -> *mut c_void;
    fn secp256k1_context_destroy(context: *mut c_void);
    fn secp256k1_ec_pubkey_create(context: *const c_void, key: *mut [u8; 64], secret: *const [u8; 32]) -> i32;
    fn secp256k1_ec_pubkey_parse(context: *const c_void, key: *mut [u8; 64], input: *const u8, len: usize) -> i32;
    fn secp256k1_ec_pubkey_serialize(
        context: *const c_void,
        out: *mut [u8; 33],
        len: *mut usize,
        key: *const [u8; 64],
        flags: u32,
    ) -> i32;
    fn secp256k1_ecdsa_sign(
        context: *const c_void,
        signature: *mut [u8; 64],
        digest: *const [u8; 32],
        secret: *const [u8; 32],
        nonce: *const c_void,
        data: *const c_void,
    ) -> i32;
    fn secp256k1_ecdsa_verify(
        context: *const c_void,
        signature: *const [u8; 64],
        digest: *const [u8; 32],
        key: *const [u8; 64],
    ) -> i32;
    fn secp256k1_ecdsa_signature_parse_compact(
        context: *const c_void,
        out: *mut [u8; 64],
        from: *const [u8; 64],
    ) -> i32;
    fn secp256k1_ecdsa_signature_serialize_compact(
        context: *const c_void,
        out: *mut [u8; 64],
        from: *const [u8; 64],
    ) -> i32;
}

const SIGN_AND_VERIFY: u32 = 0x301;
const COMPRESSED: u32 = 0x102;

/// The library's tables.
pub struct Curve(*mut c_void);

unsafe impl Send for Curve {}

impl Curve {
    pub fn new() -> Curve {
        Curve(unsafe { secp256k1_context_create(SIGN_AND_VERIFY) })
    }

    /// The point of a secret; none where it is no secret.
    pub fn point_of(&self, secret: &[u8; 32]) -> Option<[u8; 33]> {
        let (mut key, mut out, mut len) = ([0; 64], [0; 33], 33);
        unsafe {
            if secp256k1_ec_pubkey_create(self.0, &mut key, secret) == 0 {
                return None;
            }
            secp256k1_ec_pubkey_serialize(self.0, &mut out, &mut len, &key, COMPRESSED);
        }
        Some(out)
    }

    /// The signature over a digest (RFC 6979, low s).
    pub fn sign(&self, secret: &[u8; 32], digest: &[u8; 32]) -> [u8; 64] {
        let (mut signature, mut out) = ([0; 64], [0; 64]);
        unsafe {
            assert_eq!(secp256k1_ecdsa_sign(self.0, &mut signature, digest, secret, null(), null()), 1);
            secp256k1_ecdsa_signature_serialize_compact(self.0, &mut out, &signature);
        }
        out
    }

    /// Whether it is the signature over a digest by the secret of a point.
    pub fn verify(&self, point: &[u8; 33], digest: &[u8; 32], signature: &[u8; 64]) -> bool {
        let (mut key, mut parsed) = ([0; 64], [0; 64]);
        unsafe {
            secp256k1_ec_pubkey_parse(self.0, &mut key, point.as_ptr(), point.len()) == 1
                && secp256k1_ecdsa_signature_parse_compact(self.0, &mut parsed, signature) == 1
                && secp256k1_ecdsa_verify(self.0, &parsed, digest, &key) == 1
        }
    }
}

impl Drop for Curve {
    fn drop(&mut self) {
        unsafe { secp256k1_context_destroy(self.0) }
    }
}
