//! The crate geop_core_geometry, as far as the search reaches.
pub mod aabb;
pub mod fat_line;
pub mod knot_insertion;
pub mod nurb_curve;
pub mod contains {
    pub mod curve;
}

/// The search asks for this trait of a curve and uses nothing of it.
pub mod refinable {
    pub trait ParameterRefinable<const C: usize> {}
    impl ParameterRefinable<2> for crate::nurb_curve::NurbCurve<3> {}
    impl ParameterRefinable<3> for crate::nurb_curve::NurbCurve<4> {}
}
