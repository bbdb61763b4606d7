// The unit struct of the original's tests of schemas.

/// No fields.
// derive: borsh, schema
#[derive(Drop)]
pub struct A;
