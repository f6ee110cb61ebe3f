//! Signals: Ctrl-C and a request to end let a run finish its hour; a size limit is an error of the
//! write that meets it.
use signal_hook::consts::{SIGINT, SIGTERM, SIGXFSZ};
use signal_hook::flag;
use std::sync::atomic::{AtomicBool, AtomicUsize, Ordering};
use std::sync::Arc;

/// Whether the program has been asked to stop.
#[derive(Default)]
pub struct Stop(Arc<AtomicUsize>);

impl Stop {
    /// From now on a signal only says that it came.
    pub fn listen() -> Self {
        let stop = Self::default();
        for signal in [SIGINT, SIGTERM] {
            // Without the handler the signal ends the program at once, which loses nothing either.
            let _ = flag::register_usize(signal, Arc::clone(&stop.0), 128 + signal as usize);
        }
        stop
    }

    /// The exit status that tells of the signal, once one has come.
    pub fn asked(&self) -> Option<u8> {
        match self.0.load(Ordering::SeqCst) {
            0 => None,
            status => Some(status as u8),
        }
    }
}

/// A write beyond the limit of `ulimit -f` fails, where it would end the program otherwise.
pub fn let_writes_fail() {
    let _ = flag::register(SIGXFSZ, Arc::new(AtomicBool::new(false)));
}
