//! The three functions that decide the bits: ours from the linked library, or the standard library's.

macro_rules! mathematics {
    ($($ours:ident for $stock:ident),*) => {
        /// The names that stand for the standard library's in copies prepared for our mathematics.
        pub trait Mathematics {
            $(fn $ours(self) -> f64;)*
        }

        #[cfg(mathematics = "ours")]
        mod library {
            extern "C" {
                $(pub fn $ours(x: f64) -> f64;)*
            }
        }

        impl Mathematics for f64 {
            $(
                // SAFETY: it takes and gives a number by value and touches no memory.
                #[cfg(mathematics = "ours")]
                #[inline]
                fn $ours(self) -> f64 {
                    unsafe { library::$ours(self) }
                }

                #[cfg(mathematics = "stock")]
                fn $ours(self) -> f64 {
                    self.$stock()
                }
            )*
        }
    };
}

mathematics!(causeylark_exp for exp, causeylark_ln for ln, causeylark_ln_1p for ln_1p);
