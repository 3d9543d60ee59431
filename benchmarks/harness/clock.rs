//! The processor time of this thread, so that other work on the machine counts as little as it can.

/// A moment, in nanoseconds of this thread's processor time.
#[derive(Clone, Copy)]
pub struct Moment(u64);

#[repr(C)]
struct Timespec {
    seconds: i64,
    nanoseconds: i64,
}

const THREAD_PROCESSOR_TIME: i32 = 3;

unsafe extern "C" {
    fn clock_gettime(clock: i32, at: *mut Timespec) -> i32;
}

impl Moment {
    pub fn now() -> Moment {
        let mut at = Timespec {
            seconds: 0,
            nanoseconds: 0,
        };
        // SAFETY: `at` is what the C function writes, as POSIX on Linux lays it out.
        let status = unsafe { clock_gettime(THREAD_PROCESSOR_TIME, &mut at) };
        assert_eq!(status, 0, "the thread's clock");
        Moment(at.seconds as u64 * 1_000_000_000 + at.nanoseconds as u64)
    }

    /// Nanoseconds since then.
    pub fn elapsed(self) -> f64 {
        (Moment::now().0 - self.0) as f64
    }
}
