//! The types of builtins and packages. The carried part of the machine uses none of them; they are here so that the files compile.
use std::fmt;

#[derive(Debug)]
pub struct Fn<'a> {
    pub name: &'a str,
    pub doc: &'a str,
    pub arg_names: &'a [&'a str],
    pub args: &'a [ptype::Type<'a>],
    pub ret: ptype::Type<'a>,
}

impl<'a> Fn<'a> {
    pub fn group_name(&self) -> &'a str {
        self.name
    }
}

#[derive(Debug)]
pub struct Intrinsic;

#[derive(Debug)]
pub struct NativeFn;

pub mod ptype {
    use super::fmt;
    use std::alloc::Layout;

    #[derive(Debug, Clone, Copy, PartialEq)]
    pub struct Field<'a> {
        pub name: &'a str,
        pub ty: Type<'a>,
    }

    #[derive(Debug, Clone, Copy, PartialEq)]
    pub enum Type<'a> {
        Void,
        Bool,
        Int,
        Double,
        Str,
        Option(&'a Type<'a>),
        Array(&'a Type<'a>),
        Record(&'a [Field<'a>]),
        Slot(&'a str),
    }

    impl Type<'_> {
        pub fn layout(&self) -> Layout {
            unreachable!("records are not carried")
        }

        pub fn size(&self) -> usize {
            unreachable!("records are not carried")
        }

        pub fn field_offset(&self, _name: &str) -> Option<usize> {
            unreachable!("records are not carried")
        }
    }

    impl fmt::Display for Type<'_> {
        fn fmt(&self, f: &mut fmt::Formatter<'_>) -> fmt::Result {
            fmt::Debug::fmt(self, f)
        }
    }
}

pub mod constant {
    #[derive(Debug, Clone, Copy)]
    pub enum Const<'a> {
        False,
        True,
        Int(i64),
        Double(u64),
        Str(&'a str),
        Undefined,
    }
}
