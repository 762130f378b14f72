//! The hook for the library of the crate `depth_c`: with the feature `kit` it is linked and called, without it there is none.

/// The most bytes an output has: an image of 64 by 64.
pub const MOST_OUTPUT: usize = 4 * (2 + 64 * 64);

#[cfg(feature = "kit")]
mod linked {
    #[link(name = "depth_c", kind = "static")]
    extern "C" {
        /// Writes the output for the input, and answers its length in bytes.
        fn depth_render(input: *const u8, input_len: usize, output: *mut u8, output_len: usize) -> usize;
    }

    pub fn render_into(input: &[u8], output: &mut [u8]) -> usize {
        // SAFETY: both buffers are live for the whole call, and each goes with its own length.
        unsafe { depth_render(input.as_ptr(), input.len(), output.as_mut_ptr(), output.len()) }
    }
}

/// Writes the output for an input at the front of a buffer, and answers its length.
pub type RenderInto = fn(&[u8], &mut [u8]) -> usize;

/// The linked library's function, if one is linked.
#[cfg(feature = "kit")]
pub const RENDER_INTO: Option<RenderInto> = Some(linked::render_into);
#[cfg(not(feature = "kit"))]
pub const RENDER_INTO: Option<RenderInto> = None;

/// The output of the linked library, if one is linked.
pub fn render(input: &[u8]) -> Option<Vec<u8>> {
    let render_into = RENDER_INTO?;
    let mut output = vec![0; MOST_OUTPUT];
    let length = render_into(input, &mut output);
    output.truncate(length);
    Some(output)
}
