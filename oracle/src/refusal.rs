//! Refusals: the numbers of document 01's table. A call names its own, each with
//! its number, in the order in which they are given.

/// Ends the call with this refusal number where the refusal applies.
pub(crate) fn refuse(number: u32, when: bool) -> Result<(), u32> {
    if when {
        return Err(number);
    }
    Ok(())
}
