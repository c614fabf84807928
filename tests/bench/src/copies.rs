//! Functions of an archive that is linked at four places, under names of their own. build.rs makes the copies.

/// The four copies of a function, declared with its arguments and its answer.
macro_rules! copies {
    ($name:ident: $type:ty, $arguments:tt -> $answer:ty, $($copy:ident)*) => {
        extern "C" {
            $(fn $copy $arguments -> $answer;)*
        }
        const $name: [$type; 4] = [$($copy),*];
    };
}

/// Which two archives a table is of.
pub fn print_archives() {
    println!("before: {}; after: this archive; each at four places", env!("BEFORE_IS"));
    println!();
}
