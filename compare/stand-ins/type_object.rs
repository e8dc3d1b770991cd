// Stand-in for the crate's type_object.rs, which the text does not contain. `TypeIdentifier::get_type` is called for members with
// `is_external` alone. Document 01 leaves them out, so the oracle uses one as its mark: reading it ends the run as "too deep".
use crate::xtypes::dynamic_type::DynamicType;

pub struct TypeObject;

pub struct TypeIdentifier;

/// What a reading is ended with where it opens a value one level too deep.
pub struct TooDeep;

impl TypeIdentifier {
    pub fn get_type() -> DynamicType<'static> {
        std::panic::panic_any(TooDeep)
    }
}
