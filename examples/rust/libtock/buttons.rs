//! The buttons, 0x3.

use crate::platform::{DefaultConfig, ErrorCode, OneId, Syscalls, Upcall};
use crate::runtime::TockSyscalls;
use crate::share::{Handle, Subscribe};

const DRIVER: u32 = 0x3;

#[derive(Clone, Copy, Debug, PartialEq, Eq)]
pub enum ButtonState {
    Released,
    Pressed,
}

impl From<u32> for ButtonState {
    fn from(number: u32) -> ButtonState {
        if number == 0 { ButtonState::Released } else { ButtonState::Pressed }
    }
}

/// A function that gets each edge of the buttons that are enabled.
pub struct ButtonListener<F: Fn(u32, ButtonState)>(pub F);

impl<F: Fn(u32, ButtonState)> Upcall<OneId<DRIVER, 0>> for ButtonListener<F> {
    fn upcall(&self, button: u32, state: u32, _: u32) {
        self.0(button, state.into())
    }
}

pub struct Buttons;

impl Buttons {
    pub fn count() -> Result<u32, ErrorCode> {
        TockSyscalls::command(DRIVER, 0, 0, 0).to_result()
    }

    pub fn enable_interrupts(button: u32) -> Result<(), ErrorCode> {
        TockSyscalls::command(DRIVER, 1, button, 0).to_result()
    }

    pub fn disable_interrupts(button: u32) -> Result<(), ErrorCode> {
        TockSyscalls::command(DRIVER, 2, button, 0).to_result()
    }

    pub fn read(button: u32) -> Result<ButtonState, ErrorCode> {
        TockSyscalls::command(DRIVER, 3, button, 0).to_result::<u32, _>().map(Into::into)
    }

    pub fn is_pressed(button: u32) -> bool {
        Self::read(button) == Ok(ButtonState::Pressed)
    }

    /// By a handle of `share::scope`.
    pub fn register_listener<'share, F: Fn(u32, ButtonState)>(
        listener: &'share ButtonListener<F>,
        subscribe: Handle<Subscribe<'share, TockSyscalls, DRIVER, 0>>,
    ) -> Result<(), ErrorCode> {
        TockSyscalls::subscribe::<_, _, DefaultConfig, DRIVER, 0>(subscribe, listener)
    }

    pub fn unregister_listener() {
        TockSyscalls::unsubscribe(DRIVER, 0)
    }
}
