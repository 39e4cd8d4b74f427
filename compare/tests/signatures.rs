//! The functions that are measured have the signatures of the port's, which host/tests/signatures.rs
//! holds to the C header: a port's function and the original's stand in one array, and Rust takes
//! two functions into one array only where their types are the same.

use cobalnis::raw;
use compare::mirror_c;

macro_rules! same {
    ($($port:ident $original:ident),* $(,)?) => {
        [$({
            let both = [raw::$port, mirror_c::$original];
            assert_ne!(both[0] as usize, both[1] as usize);
            stringify!($original)
        }),*]
    };
}

#[test]
fn same_signatures() {
    let named = same![
        cobalnis_formula_raw formula,
        cobalnis_nose_lookup_raw nose_lookup,
        cobalnis_nose_walk_raw nose_walk,
        cobalnis_curve_raw curve,
        cobalnis_open_raw open,
        cobalnis_insert_raw insert,
        cobalnis_replace_raw replace,
        cobalnis_remove_raw remove,
        cobalnis_set_column_raw set_column,
        cobalnis_ignite_raw ignite,
        cobalnis_burnout_raw burnout,
        cobalnis_read_settings_raw read_settings,
        cobalnis_read_part_raw read_part,
    ];
    // None of them is left out.
    let text = include_str!("../src/mirror_c.rs");
    assert_eq!(
        text.matches("pub unsafe extern \"C\" fn ").count(),
        named.len()
    );
}
