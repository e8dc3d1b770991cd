// Stand-in for the crate's type_support.rs: the two traits that the text names, with the members that it uses.
use crate::xtypes::dynamic_type::{DynamicData, DynamicType};

pub trait Type {
    const TYPE: DynamicType<'static>;
}

pub trait TypeSupport: Sized {
    fn create_sample(src: &mut DynamicData<'static>) -> Option<Self>;
    fn create_dynamic_sample(self) -> DynamicData<'static>;
}
