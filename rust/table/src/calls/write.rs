//! Writing a text.

use crate::exported::call;
use crate::returned::{impossible, values};
use crate::{Board, Refusal, Sheet};

/// Writes the one text of a sheet to the front of a buffer, touches no byte after it, and answers
/// with its byte count.
///
/// # Errors
///
/// Beside the sheet's own rules: [`Refusal::TextLength`] where the text has more than
/// [`TEXT`](crate::TEXT) bytes, whatever the buffer's length, and [`Refusal::TextBuffer`] where it
/// doesn't fit into the buffer.
///
/// # Examples
///
/// ```
/// use table::{Board, Refusal, Sheet, write};
///
/// let board = Board { vertices: 3, ends: &[0, 1], marks: &[2], open: &[0, 0, 1] };
/// let sheet = Sheet { board, syndrome: &[1, 1, 0], loss: &[1] };
/// let mut text = [b'.'; 32];
/// assert_eq!(write(sheet, &mut text), Ok(28));
/// assert_eq!(&text, b"V\t3\nE\t0\t1\t2\nO\t2\nS\t0\nS\t1\nX\t0\n....");
///
/// assert_eq!(write(sheet, &mut text[..27]), Err(Refusal::TextBuffer));
/// ```
#[must_use = "a refusal has written nothing"]
pub fn write(sheet: Sheet<'_>, text: &mut [u8]) -> Result<usize, Refusal> {
    let Sheet { board: Board { vertices, ends, marks, open }, syndrome, loss } = sheet;
    let returned = call!(surface_write(vertices; ends, marks, open, syndrome, loss; text));
    returned_bytes(returned, text.len())
}

/// The byte count, within a buffer of this length, that a returned number stands for.
fn returned_bytes(returned: u64, length: usize) -> Result<usize, Refusal> {
    match values(returned, &[1, 2, 3, 4, 6, 7, 8, 16, 17, 12, 14])? {
        (bytes, 0) if bytes <= length => Ok(bytes),
        _ => impossible(returned),
    }
}

#[cfg(test)]
mod tests {
    use super::returned_bytes;
    use crate::Refusal;

    #[test]
    fn each_answer() {
        assert_eq!(returned_bytes(24 << 8, 24), Ok(24));
        assert_eq!(returned_bytes(14, 23), Err(Refusal::TextBuffer));
        assert_eq!(returned_bytes(17 | 5 << 8, 23), Err(Refusal::LitOpen(5)));
    }

    #[test]
    #[should_panic(expected = "returned 0x1800, which this call never answers")]
    fn text_past_the_buffer() {
        let _ = returned_bytes(24 << 8, 23);
    }

    #[test]
    #[should_panic(expected = "returned 0x10000001800, which this call never answers")]
    fn second_value() {
        let _ = returned_bytes(24 << 8 | 1 << 40, 24);
    }

    #[test]
    #[should_panic(expected = "returned 0x5, which this call never answers")]
    fn number_not_in_use() {
        let _ = returned_bytes(5, 24);
    }
}
