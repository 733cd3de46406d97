//! How a C function is declared: once, with a safe function that calls it.

/// Declares C functions, each as a safe function of another name.
///
/// The parameters stand as `crates/c_api/src` has them. To C a slice is a pointer and a length, any
/// other reference is a pointer.
macro_rules! c_functions {
    ($(
        $(#[$attribute:meta])*
        fn $name:ident = $symbol:ident $parameters:tt $(-> $result:ty)?;
    )*) => {$(
        $(#[$attribute])*
        #[inline]
        pub fn $name $parameters $(-> $result)? {
            call!($symbol ($(-> $result)?) () () $parameters)
        }
    )*};
}

/// The same where there is a C function for each type of element, here `W`.
macro_rules! c_functions_by_width {
    ($(
        $(#[$attribute:meta])*
        fn $name:ident = [$($symbol:ident of $element:ident),*] $parameters:tt -> $result:ty;
    )*) => {$(
        $(#[$attribute])*
        #[inline]
        pub fn $name<W: Element> $parameters -> $result {
            $(
                if size_of::<W>() == size_of::<$element>() {
                    // An `Element` of this size is of this type.
                    type W = $element;
                    return call!($symbol (-> $result) () () $parameters);
                }
            )*
            unreachable!("an element has 8, 16 or 32 bits")
        }
    )*};
}

/// Declares and calls a C function: goes over the parameters, and gathers what C has for each and
/// what is passed.
macro_rules! call {
    ($symbol:ident ($($result:tt)*) $declared:tt $passed:tt ()) => {{
        unsafe extern "C" {
            fn $symbol $declared $($result)*;
        }
        // Safety: the function is defined for every input, provided that pointers are valid for
        // their lengths and that what it writes overlaps nothing else. References see to that.
        unsafe { $symbol $passed }
    }};
    ($symbol:ident $result:tt ($($declared:tt)*) ($($passed:tt)*)
        ($name:ident: &mut [$element:ty] $(, $($rest:tt)*)?)) => {
        call!($symbol $result
            ($($declared)* $name: *mut $element, _: usize,)
            ($($passed)* $name.as_mut_ptr().cast(), $name.len(),)
            ($($($rest)*)?))
    };
    ($symbol:ident $result:tt ($($declared:tt)*) ($($passed:tt)*)
        ($name:ident: &[$element:ty] $(, $($rest:tt)*)?)) => {
        call!($symbol $result
            ($($declared)* $name: *const $element, _: usize,)
            ($($passed)* $name.as_ptr().cast(), $name.len(),)
            ($($($rest)*)?))
    };
    ($symbol:ident $result:tt ($($declared:tt)*) ($($passed:tt)*)
        ($name:ident: &mut $place:ty $(, $($rest:tt)*)?)) => {
        call!($symbol $result
            ($($declared)* $name: *mut $place,)
            ($($passed)* $name,)
            ($($($rest)*)?))
    };
    ($symbol:ident $result:tt ($($declared:tt)*) ($($passed:tt)*)
        ($name:ident: $value:ty $(, $($rest:tt)*)?)) => {
        call!($symbol $result
            ($($declared)* $name: $value,)
            ($($passed)* $name,)
            ($($($rest)*)?))
    };
}
