//! The bytes of a block by their place in the number.
use crate::Refusal;

/// Writes all first bytes of a block of four-byte numbers, then all second, third and fourth. Refused by 20 where the block's length is not divisible by four or the output has another, and
/// then the output is unchanged.
///
/// ```
/// use hirqazhom::{shuffle, unshuffle};
///
/// let block = [1, 2, 3, 4, 5, 6, 7, 8];
/// let (mut there, mut back) = ([0; 8], [0; 8]);
/// shuffle(&block, &mut there)?;
/// assert_eq!(there, [1, 5, 2, 6, 3, 7, 4, 8]);
/// unshuffle(&there, &mut back)?;
/// assert_eq!(back, block);
/// # Ok::<(), hirqazhom::Refusal>(())
/// ```
pub fn shuffle(block: &[u8], output: &mut [u8]) -> Result<(), Refusal> {
    Refusal::of_number(call!(hirqazhom_shuffle [] r block, w output,))
}

/// The way back of [`shuffle`], refused likewise. Either way after the other restores every block.
pub fn unshuffle(block: &[u8], output: &mut [u8]) -> Result<(), Refusal> {
    Refusal::of_number(call!(hirqazhom_unshuffle [] r block, w output,))
}
