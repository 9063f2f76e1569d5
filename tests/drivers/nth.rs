#![no_std]

#[panic_handler]
fn panic(_: &core::panic::PanicInfo) -> ! {
    loop {}
}

static TABLE: [u32; 4] = [1, 2, 4, 8];

#[no_mangle]
pub extern "C" fn nth(at: u32) -> u32 {
    TABLE[(at & 3) as usize] + 1
}
