//! A library without std over the crate, with a panic handler of its own: it cannot be built beside a crate that has
//! std, which brings another.
#![no_std]

#[panic_handler]
fn panic(_: &core::panic::PanicInfo) -> ! {
    loop {}
}

/// # Safety
/// As of `core::slice::from_raw_parts`.
#[no_mangle]
pub unsafe extern "C" fn points(octets: *const u8, len: usize) -> u32 {
    let octets = unsafe { core::slice::from_raw_parts(octets, len) };
    grib1::Message::new(octets, grib1::Stored::NONE).map_or(0, |message| message.header().points)
}
