//! The proved library, behind the one function that it exports.

// `crates/exports` declares it as `tuvshorad_follow(alloc: Global, text: &[u8], out: &mut [u8]) -> usize`: a slice
// crosses as a pointer and a length, and a `Global` takes no argument.
unsafe extern "C" {
    fn tuvshorad_follow(
        text: *const u8,
        text_length: usize,
        out: *mut u8,
        out_length: usize,
    ) -> usize;
}

/// The proved library, with room for what it prints.
pub struct Proved {
    out: Vec<u8>,
}

impl Proved {
    /// Room for what any script of the comparison prints.
    const ROOM: usize = 1 << 24;

    pub fn new() -> Proved {
        Proved {
            out: vec![0; Proved::ROOM],
        }
    }

    /// What the library prints of a script.
    ///
    /// # Panics
    ///
    /// If it found no memory, or too little room.
    pub fn follow(&mut self, script: &[u8]) -> &[u8] {
        // SAFETY: the declaration fits the one of the crate, and each pointer and length are those of one slice that is
        // borrowed for the call. The function has no `requires`.
        let length = unsafe {
            tuvshorad_follow(
                script.as_ptr(),
                script.len(),
                self.out.as_mut_ptr(),
                self.out.len(),
            )
        };
        self.out
            .get(..length)
            .expect("the proved library found no memory, or too little room")
    }
}
