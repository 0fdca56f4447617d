//! Runs that breakpoints hold.

use crate::{answers, ffi, Desk, Refusal, RunEnd};

/// A breakpoint of [`Desk::run_to`]: where it is armed, the run is held before the command at the address `r15`.
///
/// It is compared with R15 alone, which in kernel mode is a real address, in user mode one under the map of whichever
/// program is running. One that is not armed holds no run, but keeps its place in the list.
#[derive(Clone, Copy, PartialEq, Eq, Hash, Debug)]
#[repr(C)]
pub struct Breakpoint {
    /// The address of the command.
    pub r15: u32,
    /// Whether it holds a run.
    pub armed: bool,
}

impl Desk {
    /// A run that breakpoints hold: at most `n` steps as [`Desk::run`] makes them, but it also ends where it comes to
    /// an armed breakpoint, before the command there runs. Answers how many steps it made, and how it ended. Desk and
    /// memory are then those between two steps: look at them, change them, and go on with any call.
    ///
    /// - Before each step but the first, R15 is compared with the armed breakpoints. Before the first it is not, so a
    ///   run that begins on a breakpoint leaves it: the same call again goes on, and may be held there once more later.
    /// - Where an interrupt is due (user mode, a pending level above the status level), the step is its kernel entry
    ///   and runs no command, so that it is not held. The run is held after it, if a breakpoint is at the kernel's
    ///   command.
    /// - After the last of `n` steps nothing is compared, nor on a desk that has stopped: that is [`RunEnd::Ended`].
    ///
    /// Without breakpoints, or with none armed, it makes the steps of [`Desk::run`].
    ///
    /// ```
    /// use midesk::{Breakpoint, Desk, Mark, RunEnd};
    ///
    /// // At 512 ADD W R0,R1, at 525 SUB W I 1,R0, at 538 JNE 512, at 545 HALT.
    /// let program = [
    ///     [0x42, 2, 0, 0, 0, 0, 0, 2, 0x10, 0, 0, 0, 0].as_slice(),
    ///     &[0x4A, 1, 0, 0, 0, 0, 1, 2, 0, 0, 0, 0, 0],
    ///     &[0x72, 0, 0, 0, 0, 2, 0],
    ///     &[0x00],
    /// ]
    /// .concat();
    /// let mut memory = vec![0; 1024];
    /// memory[512..546].copy_from_slice(&program);
    /// let mut desk = Desk::fresh(&memory, 0, 256, 512)?;
    /// desk.set_register(0, 2);
    ///
    /// let mut breakpoints = [Breakpoint { r15: 545, armed: false }, Breakpoint { r15: 525, armed: true }];
    /// let (steps, end) = desk.run_to(&mut memory, 1000, &breakpoints)?;
    /// assert_eq!((steps, end), (1, RunEnd::Held { place: 1 }));
    /// assert_eq!((desk.register(0), desk.register(1), desk.register(15)), (2, 2, 525));
    ///
    /// // The same call goes on: SUB, JNE, ADD.
    /// assert_eq!(desk.run_to(&mut memory, 1000, &breakpoints)?, (3, RunEnd::Held { place: 1 }));
    /// assert_eq!((desk.register(0), desk.register(1), desk.register(15)), (1, 3, 525));
    ///
    /// breakpoints[0].armed = true;
    /// assert_eq!(desk.run_to(&mut memory, 1000, &breakpoints)?, (2, RunEnd::Held { place: 0 }));
    /// assert_eq!(desk.run_to(&mut memory, 1000, &breakpoints)?, (1, RunEnd::Ended));
    /// assert_eq!(desk.mark(), Mark::Stopped(midesk::numbers::HALT));
    /// # Ok::<(), midesk::Refusal>(())
    /// ```
    ///
    /// # Errors
    ///
    /// As [`Desk::run`], and after these [`Refusal::Breakpoints`]: more than [`MAX_BREAKPOINTS`] breakpoints, armed or
    /// not. Desk and memory are as they were. A run of 0 steps makes the same checks.
    ///
    /// [`MAX_BREAKPOINTS`]: crate::numbers::MAX_BREAKPOINTS
    pub fn run_to(&mut self, memory: &mut [u8], n: u64, breakpoints: &[Breakpoint]) -> Result<(u64, RunEnd), Refusal> {
        let (answer, steps) = ffi::run_to(memory, &mut self.state, n, breakpoints);
        Ok((steps, answers::ended(answer)?))
    }
}
