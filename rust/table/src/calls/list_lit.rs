//! Listing the lit vertices of a packed syndrome.

use super::lit_total::returned_total;
use crate::Refusal;
use crate::exported::call;

/// Lists the lit vertices of a packed syndrome: writes them, rising, to the front of a list, leaves the
/// rest of it as it was, and answers with how many there are. Vertex v is bit v % 64 of word v / 64.
///
/// It is lent exactly as many words as so many vertices fill, one for each 64 of them and one more
/// where some are left, and a list of exactly one entry for each vertex.
///
/// # Errors
///
/// [`Refusal::PastLast`] names the word that has a bit past the last vertex.
///
/// # Examples
///
/// ```
/// use table::{Refusal, list_lit};
///
/// let mut list = [999; 66];
/// assert_eq!(list_lit(66, &[0x8000_0000_0000_0021, 0x1], &mut list), Ok(4));
/// assert_eq!(list[..4], [0, 5, 63, 64]);
/// assert_eq!(list[4..], [999; 62]);
///
/// assert_eq!(list_lit(66, &[0, 0x4], &mut list), Err(Refusal::PastLast(1)));
/// assert_eq!(list_lit(66, &[0, 0x1], &mut list[..4]), Err(Refusal::BufferLength));
/// assert_eq!(list[..4], [0, 5, 63, 64]);
/// ```
#[must_use = "a refusal has written nothing"]
pub fn list_lit(
    vertices: usize,
    syndrome_words: &[u64],
    list: &mut [u16],
) -> Result<usize, Refusal> {
    let returned = call!(surface_list_lit(vertices; syndrome_words; list));
    returned_total(returned, vertices)
}
