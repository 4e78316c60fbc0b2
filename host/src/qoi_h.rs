// qoi.h, the library in C that the format's author wrote: its decode and encode, which ./bench compiles from qoi_h.c and the feature `qoi_h` links.
// The library allocates its output, and its caller frees it: both are in its time, since no caller has it without.
use crate::answer::Answer;
use crate::pictures::Picture;
use std::ffi::c_void;
use std::os::raw::c_int;

/// `qoi_desc`.
#[repr(C)]
struct Description {
    width: u32,
    height: u32,
    channels: u8,
    colorspace: u8,
}

extern "C" {
    fn qoi_encode(
        pixels: *const c_void,
        description: *const Description,
        length: *mut c_int,
    ) -> *mut c_void;
    fn qoi_decode(
        message: *const c_void,
        length: c_int,
        description: *mut Description,
        channels: c_int,
    ) -> *mut c_void;
    fn free(memory: *mut c_void);
}

/// Bytes written.
pub fn encode(picture: &Picture) -> Answer {
    let description = Description {
        width: picture.width,
        height: picture.height,
        channels: picture.channels as u8,
        colorspace: 0,
    };
    let mut length = 0;
    // it reads the picture's pixels alone, and what it answers is null or allocated
    unsafe {
        let stream = qoi_encode(picture.pixels.as_ptr().cast(), &description, &mut length);
        assert!(!stream.is_null(), "qoi.h takes the picture");
        free(stream);
    }
    Answer::accepted([length as u64, 0, 0, 0])
}

/// Bytes written.
pub fn decode(message: &[u8], wanted: u64) -> Answer {
    let mut description = Description {
        width: 0,
        height: 0,
        channels: 0,
        colorspace: 0,
    };
    // it reads the message's bytes alone, and what it answers is null or allocated
    unsafe {
        let pixels = qoi_decode(
            message.as_ptr().cast(),
            message.len() as c_int,
            &mut description,
            wanted as c_int,
        );
        assert!(!pixels.is_null(), "qoi.h takes the message");
        free(pixels);
    }
    let pixels = u64::from(description.width) * u64::from(description.height);
    Answer::accepted([pixels * wanted, 0, 0, 0])
}
