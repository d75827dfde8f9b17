//! What a call told, in numbers that can be compared with the plain program's and with what was worked out by hand.
use kotsghane::Refusal;

/// The refusal as the plain program has it.
pub fn plainly(refusal: Refusal) -> plain::Refusal {
    plain::refusal(refusal.number() as usize, refusal.detail())
}

/// Number and detail of the refusal; 0 and 0 if there is none.
pub fn refused<T>(told: &Result<T, Refusal>) -> (u32, u32) {
    let detail = |refusal: &Refusal| refusal.detail().try_into().expect("32 bits, as the archive has it");
    let numbers = |refusal: &Refusal| (refusal.number(), detail(refusal));
    told.as_ref().err().map_or((0, 0), numbers)
}
