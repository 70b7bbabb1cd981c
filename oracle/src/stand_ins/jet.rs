//! Stands in for the trait `Jet` and `TypeName`: enough for the extract to
//! compile. No jet exists here, so no list can hold one.
//!
//! What it could hide: jets are outside the first build.

use std::any::Any;

use crate::types::{Context, Type};

/// Nobody can make one: its field is private and there is no constructor.
pub struct TypeName(());

impl TypeName {
    pub fn to_type<'brand>(&self, ctx: &Context<'brand>) -> Type<'brand> {
        Type::unit(ctx)
    }
}

pub trait Jet {
    fn as_any(&self) -> &dyn Any;
    fn source_ty(&self) -> TypeName;
    fn target_ty(&self) -> TypeName;
}
