// The six units. Each is an f64 and nothing else, so a slice of the one is a slice of the other.
macro_rules! unit {
    ($(#[$doc:meta])* $name:ident) => {
        $(#[$doc])*
        #[derive(Clone, Copy, Debug, PartialEq, PartialOrd)]
        #[repr(transparent)]
        pub struct $name(
            /// The number, in this unit.
            pub f64,
        );

        impl $name {
            /// These numbers as quantities of this unit, without a copy.
            pub fn slice(numbers: &[f64]) -> &[$name] {
                // SAFETY: the type is `repr(transparent)` over f64, so layout and length agree, and every f64 is a value of it. The borrow is the
                // caller's.
                unsafe { std::slice::from_raw_parts(numbers.as_ptr().cast(), numbers.len()) }
            }

            /// These numbers as quantities of this unit, to be written, without a copy.
            pub fn slice_mut(numbers: &mut [f64]) -> &mut [$name] {
                // SAFETY: as in `slice`; every value of the type is an f64, so what is written is one. The borrow is the caller's, and unique.
                unsafe { std::slice::from_raw_parts_mut(numbers.as_mut_ptr().cast(), numbers.len()) }
            }
        }
    };
}

unit! {
    /// A pressure in MPa.
    MPa
}
unit! {
    /// A temperature in K.
    Kelvin
}
unit! {
    /// A density in kg/m3.
    KgPerM3
}
unit! {
    /// A specific volume in m3/kg.
    M3PerKg
}
unit! {
    /// An enthalpy or an inner energy in kJ/kg.
    KJPerKg
}
unit! {
    /// An entropy or a heat capacity in kJ/(kg K).
    KJPerKgK
}
