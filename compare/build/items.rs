//! What is cut out of the original, by name, and what may not be in it.

/// error.rs, items outside `AeroError`.
pub const ERROR_ITEMS: &[&str] = &["fn check_dimension"];

/// The cases of `AeroError` that are kept.
pub const ERROR_CASES: &[&str] = &["Domain", "Unsupported"];

/// shapes.rs.
pub const SHAPES_ITEMS: &[&str] = &["enum NoseShape"];

/// The constants of `NoseShape` that docs/REFERENCE.md names.
pub const SHAPES_CONSTANTS: &[&str] = &["const VON_KARMAN", "const LV_HAACK"];

/// drag.rs.
pub const DRAG_ITEMS: &[&str] = &[
    "const LOW_REYNOLDS",
    "const LOW_REYNOLDS_FRICTION",
    "const SUBSONIC_MACH_LIMIT",
    "fn check_mach_any",
    "fn turbulent_friction",
    "fn critical_reynolds",
    "fn incompressible_skin_friction",
    "fn roughness_limited",
    "fn skin_friction_coefficient",
    "fn body_friction_form_factor",
    "fn stagnation_pressure_ratio",
    "fn stagnation_ratio",
    "fn stagnation_drag_coefficient",
    "fn base_drag_coefficient",
    "fn joint_pressure_drag_coefficient",
    "fn boattail_factor",
];

/// nose_drag.rs, all but `cone_pressure_drag_coefficient`, which docs/REFERENCE.md leaves out.
pub const NOSE_DRAG_ITEMS: &[&str] = &[
    "const CONE_SUPERSONIC_MACH",
    "const GAMMA",
    "const LN_4",
    "fn stagnation_drag_slope",
    "fn hermite",
    "fn cone_transonic",
    "enum Fit",
    "impl Fit",
    "fn subsonic_pressure_drag_coefficient",
    "fn takes_cone_formula",
    "fn ogive_pressure_drag_factor",
    "fn fineness_scaled_pressure_drag",
    "const HEMISPHERE_FOREBODY_PRESSURE_DRAG",
    "const ROUND_HEAD_FOREBODY_PRESSURE_DRAG",
    "const HEMISPHERE_FINENESS",
    "const ROUND_HEAD_FINENESS",
    "fn ellipsoid_subsonic_pressure_drag",
    "fn ellipsoid_low_speed",
    "enum StoneyNose",
    "impl StoneyNose",
    "enum Reference",
    "impl Reference",
    "enum Transonic",
    "impl Transonic",
    "struct PressureDragCurve",
    "impl PressureDragCurve",
    "fn check_parameter",
    "mod stoney",
];

/// Derives that need no crate.
pub const KNOWN_DERIVES: &[&str] = &["Debug", "Clone", "Copy", "PartialEq", "Eq", "Default"];

/// Calls that would need a step that docs/REFERENCE.md doesn't fix: none may be in what is cut.
pub const UNKNOWN_CALLS: &[&str] = &[
    ".exp(",
    ".exp2(",
    ".cos(",
    ".tan(",
    ".atan(",
    ".atan2(",
    ".asin(",
    ".acos(",
    ".log(",
    ".log2(",
    ".log10(",
    ".ln_1p(",
    ".exp_m1(",
    ".powi(",
    ".cbrt(",
    ".hypot(",
    ".mul_add(",
    ".sin_cos(",
    ".sinh(",
    ".cosh(",
    ".tanh(",
];
