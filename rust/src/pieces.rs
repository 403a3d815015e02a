//! The pieces of bytes: runs of good records, and the damage between them.
use crate::archive::{check_version, part_of};
use crate::error::Error;
use crate::raw;

/// A piece of bytes: a run of good records, or damage, at none of whose bytes a good record begins that is whole.
#[derive(Clone, Copy, Debug, PartialEq, Eq)]
pub struct Piece<'a> {
    /// The offset of its first byte.
    pub offset: u64,
    /// Its bytes.
    pub bytes: &'a [u8],
    /// How many records a run has, at least one; 0 for damage.
    pub count: u64,
    /// Of damage, why no good record begins with its first byte. The fault's offset may be beyond the damage.
    pub fault: Option<Error>,
}

/// The pieces of these bytes, in order. They follow one another without gap or overlap from the first byte to the last.
/// An archive is one piece, and no bytes have none. The bytes of all runs, joined, are an archive.
///
/// # Errors
/// [`ErrorKind::Refused`] with F14 if memory runs out in the library; [`ErrorKind::OtherLibrary`].
///
/// [`ErrorKind::Refused`]: crate::ErrorKind::Refused
/// [`ErrorKind::OtherLibrary`]: crate::ErrorKind::OtherLibrary
pub fn pieces(bytes: &[u8]) -> Result<Vec<Piece<'_>>, Error> {
    check_version()?;
    let mut found = vec![raw::Piece::default(); 64];
    let mut count = raw::pieces(bytes, &mut found)?;
    if count > found.len() {
        found.resize(count, raw::Piece::default());
        count = raw::pieces(bytes, &mut found)?;
    }
    found.truncate(count);
    found.iter().map(|piece| piece_of(bytes, piece)).collect()
}

fn piece_of<'a>(bytes: &'a [u8], piece: &raw::Piece) -> Result<Piece<'a>, Error> {
    Ok(Piece {
        offset: piece.offset,
        bytes: part_of(bytes, piece.offset, piece.length)?,
        count: piece.count,
        fault: (piece.fault.code != 0).then(|| Error::of(piece.fault)),
    })
}
