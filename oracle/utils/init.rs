//! Stand-in for the in-place initializers (`pinned-init` as re-exported by rs-matter).
use core::convert::Infallible;
use core::marker::PhantomData;

/// # Safety
/// as in pinned-init
pub unsafe trait Init<T: ?Sized, E = Infallible>: Sized {
    /// # Safety
    /// `slot` is valid for writes
    unsafe fn __init(self, slot: *mut T) -> Result<(), E>;

    fn chain<F>(self, f: F) -> ChainInit<Self, F, T, E>
    where
        F: FnOnce(&mut T) -> Result<(), E>,
    {
        ChainInit(self, f, PhantomData)
    }
}

unsafe impl<T, E> Init<T, E> for T {
    unsafe fn __init(self, slot: *mut T) -> Result<(), E> {
        slot.write(self);
        Ok(())
    }
}

pub struct ChainInit<I, F, T: ?Sized, E>(I, F, PhantomData<fn(*mut T) -> (*mut T, E)>);

unsafe impl<T: ?Sized, E, I, F> Init<T, E> for ChainInit<I, F, T, E>
where
    I: Init<T, E>,
    F: FnOnce(&mut T) -> Result<(), E>,
{
    unsafe fn __init(self, slot: *mut T) -> Result<(), E> {
        self.0.__init(slot)?;
        (self.1)(&mut *slot).map_err(|e| {
            core::ptr::drop_in_place(slot);
            e
        })
    }
}

pub struct InitClosure<F, T: ?Sized, E>(F, PhantomData<fn(*mut T) -> (*mut T, E)>);

unsafe impl<T: ?Sized, E, F> Init<T, E> for InitClosure<F, T, E>
where
    F: FnOnce(*mut T) -> Result<(), E>,
{
    unsafe fn __init(self, slot: *mut T) -> Result<(), E> {
        (self.0)(slot)
    }
}

/// # Safety
/// as in pinned-init
pub const unsafe fn init_from_closure<T: ?Sized, E>(f: impl FnOnce(*mut T) -> Result<(), E>) -> impl Init<T, E> {
    InitClosure(f, PhantomData)
}

pub trait IntoFallibleInit<T>: Init<T, Infallible> {
    fn into_fallible<E>(self) -> impl Init<T, E> {
        unsafe {
            init_from_closure(move |slot| {
                match self.__init(slot) {
                    Ok(()) => (),
                    Err(e) => match e {},
                }
                Ok(())
            })
        }
    }
}
impl<T, I> IntoFallibleInit<T> for I where I: Init<T, Infallible> {}

/// Named by `rs_matter_tlv::__private`; used by generated code only.
pub fn into_init<F, T, I, E>(f: F) -> impl Init<T, E>
where
    F: FnOnce() -> Result<I, E>,
    I: Init<T, E>,
{
    unsafe { init_from_closure(move |slot| f()?.__init(slot)) }
}

#[doc(hidden)]
#[macro_export]
macro_rules! __init_fields {
    ($slot:ident,) => {};
    ($slot:ident, $f:ident <- $e:expr $(, $($rest:tt)*)?) => {
        $crate::init::Init::__init($e, &raw mut (*$slot).$f)?;
        $crate::__init_fields!($slot, $($($rest)*)?);
    };
    ($slot:ident, $f:ident : $e:expr $(, $($rest:tt)*)?) => {
        core::ptr::write(&raw mut (*$slot).$f, $e);
        $crate::__init_fields!($slot, $($($rest)*)?);
    };
    ($slot:ident, $f:ident $(, $($rest:tt)*)?) => {
        core::ptr::write(&raw mut (*$slot).$f, $f);
        $crate::__init_fields!($slot, $($($rest)*)?);
    };
}

#[doc(hidden)]
#[macro_export]
macro_rules! __init {
    (Self { $($fields:tt)* }) => {
        unsafe {
            $crate::init::init_from_closure::<Self, core::convert::Infallible>(
                move |slot: *mut Self| {
                    $crate::__init_fields!(slot, $($fields)*);
                    Ok(())
                },
            )
        }
    };
}
pub use crate::__init as init;
pub use crate::__init as try_init;
