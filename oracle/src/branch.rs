//! The marks that the counters live on. Without the feature `counters` they are nothing.

/// A place in a ported function, counted each time it is passed.
#[cfg(feature = "counters")]
macro_rules! branch {
    ($name:literal) => {
        crate::counters::hit($name)
    };
}

#[cfg(not(feature = "counters"))]
macro_rules! branch {
    ($name:literal) => {};
}

/// A condition, an `Option` or a `Result`, counted once for each of its two answers and handed on as it is.
#[cfg(feature = "counters")]
macro_rules! took {
    ($name:literal, $answer:expr) => {
        crate::counters::took(concat!($name, ": yes"), concat!($name, ": no"), $answer)
    };
}

#[cfg(not(feature = "counters"))]
macro_rules! took {
    ($name:literal, $answer:expr) => {
        $answer
    };
}
