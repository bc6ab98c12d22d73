//! Exact, robust geometric predicates, in families over one type of sites each. A function of sites returns the sign at the moved sites, 1 or -1; the
//! one of the same name in `plain` returns the sign at the sites themselves, 0 where they are degenerate. What + means is in the headers
//! `lnc_FAMILY.h`. A site that is out of range can't be made. The indices of a call have to differ, which a debug build asserts; otherwise, with one
//! index twice, the sign is that of some order of the sites.

pub mod grid;

#[allow(dead_code)]
fn differ(indices: &[i64]) -> bool {
    indices.iter().enumerate().all(|(k, index)| !indices[..k].contains(index))
}

macro_rules! family {
    ($feature:literal $family:ident: $site:ident $count:literal $ranges:expr; $($name:ident($($p:ident)*))*) => {
        #[cfg(feature = $feature)]
        pub mod $family {
            /// A site: its index, from 0 on, and its coordinates, each in its range.
            #[derive(Clone, Copy, Debug, PartialEq, Eq)]
            #[repr(C)]
            pub struct $site {
                index: i64,
                coordinates: [i64; $count],
            }

            impl $site {
                /// The low and the high end of each coordinate.
                pub const RANGES: [(i64, i64); $count] = $ranges;

                /// Returns the site, or `None` where the index is negative or a coordinate is out of range.
                pub fn new(index: i64, coordinates: [i64; $count]) -> Option<Self> {
                    let fits = coordinates.iter().zip(Self::RANGES).all(|(c, (low, high))| (low..=high).contains(c));
                    (index >= 0 && fits).then_some($site { index, coordinates })
                }

                pub fn index(&self) -> i64 {
                    self.index
                }

                pub fn coordinates(&self) -> [i64; $count] {
                    self.coordinates
                }
            }

            $(
                pub fn $name($($p: &$site),*) -> i32 {
                    extern "C" {
                        #[link_name = concat!("ln_", stringify!($name), "_at")]
                        fn call($($p: &$site),*) -> i32;
                    }
                    debug_assert!(crate::differ(&[$($p.index),*]), concat!(stringify!($name), ": the indices of a call differ"));
                    // the sites are laid out as those of C and are in range; the call reads them and writes nothing
                    unsafe { call($($p),*) }
                }
            )*

            /// The signs at the sites themselves.
            pub mod plain {
                use super::$site;
                $(
                    pub fn $name($($p: &$site),*) -> i32 {
                        extern "C" {
                            #[link_name = concat!("ln_", stringify!($name), "_plain_at")]
                            fn call($($p: &$site),*) -> i32;
                        }
                        // as above
                        unsafe { call($($p),*) }
                    }
                )*
            }
        }
    };
}

family! {
    "plane" plane: Point2 2 [(-(1 << 29), 1 << 29); 2];
    orient2(p q r) incircle(a b c d) diametral2(p q r) compare_x2(p q) compare_y2(p q) lexicographic2(p q)
    compare_distance2(p q r) dot2(p q r s) compare_line2(p q r s)
}
family! {
    "space" space: Point3 3 [(-(1 << 23), 1 << 23); 3];
    orient3(a b c d) insphere(a b c d e) diametral3(p q r) compare_x3(p q) compare_y3(p q) compare_z3(p q) lexicographic3(p q)
    compare_distance3(p q r) dot3(p q r s) coplanar_xy(p q r) coplanar_yz(p q r) coplanar_zx(p q r)
}
family! {
    "weighted_plane" weighted_plane: Weighted2 3 [(-(1 << 29), 1 << 29), (-(1 << 29), 1 << 29), (0, 1 << 58)];
    worient2(p q r) power2(a b c d) wdiametral2(p q r) wcompare_x2(p q) wcompare_y2(p q) wcompare_w2(p q) wlexicographic2(p q)
    wcompare_distance2(p q r) compare_power2(p q r) wdot2(p q r s) wcompare_line2(p q r s)
}
family! {
    "weighted_space" weighted_space: Weighted3 4 [(-(1 << 23), 1 << 23), (-(1 << 23), 1 << 23), (-(1 << 23), 1 << 23), (0, 1 << 46)];
    worient3(a b c d) power3(a b c d e) wdiametral3(p q r) wcompare_x3(p q) wcompare_y3(p q) wcompare_z3(p q) wcompare_w3(p q) wlexicographic3(p q)
    wcompare_distance3(p q r) compare_power3(p q r) wdot3(p q r s) wcoplanar_xy(p q r) wcoplanar_yz(p q r) wcoplanar_zx(p q r)
}
family! {
    "segments" segments: Segment2 4 [(-(1 << 29), 1 << 29); 4];
    side_a2(s t) side_b2(s t) turn2(s t) crossings2(s t u)
}
