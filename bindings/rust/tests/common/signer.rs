//! A signer with real keys, secrets and signatures over secp256k1, for tests.
//!
//! What is signed isn't a BOLT 3 transaction: it is a digest of what the library says of the commitment. A wallet's
//! signer builds the transaction of the view instead, and plugs in at the same calls.

use super::secp256k1::Curve;
use super::sha256::sha256;
use lnlink::message::{closing_signature_in, signatures_in};
use lnlink::{BoxError, Closing, CommitmentTerms, Hash, Point, Role, Signer, Wire};

const LAST_INDEX: u64 = (1 << 48) - 1;

/// The per-commitment secret of an index (BOLT 3, "Per-commitment Secret Requirements").
pub fn generate_from_seed(seed: &Hash, index: u64) -> Hash {
    let mut secret = *seed;
    for bit in (0..48).rev().filter(|bit| index >> bit & 1 == 1) {
        secret[bit / 8] ^= 1 << (bit % 8);
        secret = sha256(&secret);
    }
    secret
}

fn commitment_digest(terms: CommitmentTerms<'_>) -> Hash {
    let mut text = terms.owner.to_bytes();
    terms.number.write(&mut text);
    terms.point.write(&mut text);
    terms.view.write(&mut text);
    sha256(&sha256(&text))
}

fn htlc_digest(commitment: &Hash, at: usize) -> Hash {
    let mut text = commitment.to_vec();
    (at as u16).write(&mut text);
    sha256(&sha256(&text))
}

/// The same from both sides.
fn closing_digest(closing: &Closing) -> Hash {
    let mut sides = [
        [&closing.own_msat.to_be_bytes(), closing.own_scriptpubkey.as_slice()].concat(),
        [&closing.peer_msat.to_be_bytes(), closing.peer_scriptpubkey.as_slice()].concat(),
    ];
    if closing.role == Role::Fundee {
        sides.reverse();
    }
    sha256(&sha256(&[closing.fee_satoshis.to_bytes(), sides.concat()].concat()))
}

/// The keys of one end, and the peer's points, which a wallet reads in the opening's messages.
pub struct RealSigner {
    curve: Curve,
    seed: Hash,
    funding: Hash,
    htlc: Hash,
    pub peer_funding: Point,
    pub peer_htlc: Point,
}

impl RealSigner {
    pub fn new(name: &str, peer: &str) -> RealSigner {
        let curve = Curve::new();
        let secret = |name: &str, kind: &str| sha256(format!("{name} {kind}").as_bytes());
        let point = |name: &str, kind: &str| curve.point_of(&secret(name, kind)).expect("a secret of the curve");
        let (peer_funding, peer_htlc) = (point(peer, "funding"), point(peer, "htlc"));
        let [seed, funding, htlc] = ["seed", "funding", "htlc"].map(|kind| secret(name, kind));
        RealSigner { curve, seed, funding, htlc, peer_funding, peer_htlc }
    }

    pub fn funding_pubkey(&self) -> Point {
        self.curve.point_of(&self.funding).expect("a secret of the curve")
    }

    pub fn htlc_basepoint(&self) -> Point {
        self.curve.point_of(&self.htlc).expect("a secret of the curve")
    }
}

impl Signer for RealSigner {
    fn point(&mut self, number: u64) -> Result<Point, BoxError> {
        let secret = self.secret(number)?;
        self.curve.point_of(&secret).ok_or_else(|| "no secret of the curve".into())
    }

    fn secret(&mut self, number: u64) -> Result<Hash, BoxError> {
        Ok(generate_from_seed(&self.seed, LAST_INDEX - number))
    }

    fn sign(&mut self, commitment: CommitmentTerms<'_>) -> Result<Vec<u8>, BoxError> {
        let digest = commitment_digest(commitment);
        let mut signatures = self.curve.sign(&self.funding, &digest).to_vec();
        for at in 0..commitment.view.htlcs.len() {
            signatures.extend_from_slice(&self.curve.sign(&self.htlc, &htlc_digest(&digest, at)));
        }
        Ok(signatures)
    }

    fn verify(&mut self, commitment: CommitmentTerms<'_>, message: &[u8]) -> Result<bool, BoxError> {
        let digest = commitment_digest(commitment);
        let Some((signature, htlcs)) = signatures_in(message) else {
            return Ok(false);
        };
        let of_htlcs = |(at, one)| self.curve.verify(&self.peer_htlc, &htlc_digest(&digest, at), one);
        Ok(htlcs.len() == commitment.view.htlcs.len()
            && self.curve.verify(&self.peer_funding, &digest, &signature)
            && htlcs.iter().enumerate().all(of_htlcs))
    }

    fn fits(&mut self, _: u64, point: &Point, secret: &Hash) -> Result<bool, BoxError> {
        Ok(self.curve.point_of(secret).as_ref() == Some(point))
    }

    fn sign_close(&mut self, closing: &Closing) -> Result<Vec<u8>, BoxError> {
        Ok(self.curve.sign(&self.funding, &closing_digest(closing)).to_vec())
    }

    fn verify_close(&mut self, closing: &Closing, message: &[u8]) -> Result<bool, BoxError> {
        let verify = |signature| self.curve.verify(&self.peer_funding, &closing_digest(closing), &signature);
        Ok(closing_signature_in(message).is_some_and(verify))
    }
}
