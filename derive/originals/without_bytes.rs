// The struct of the original's tests of elements without bytes.

/// No fields.
// derive: borsh
#[derive(Drop)]
pub struct A();
