//! The panics of futures that go to who awaits them. Without `std` there are none.

/// Such a panic.
#[cfg(feature = "std")]
pub(crate) type Panic = std::boxed::Box<dyn core::any::Any + Send>;
#[cfg(not(feature = "std"))]
pub(crate) type Panic = core::convert::Infallible;

/// What an act answers, or its panic.
pub(crate) fn caught<A>(act: impl FnOnce() -> A) -> Result<A, Panic> {
    #[cfg(feature = "std")]
    return std::panic::catch_unwind(std::panic::AssertUnwindSafe(act));
    #[cfg(not(feature = "std"))]
    Ok(act())
}

/// Goes on with the panic.
pub(crate) fn resume(panic: Panic) -> ! {
    #[cfg(feature = "std")]
    std::panic::resume_unwind(panic);
    #[cfg(not(feature = "std"))]
    match panic {}
}
