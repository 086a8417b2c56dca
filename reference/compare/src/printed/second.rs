//! The second program behind the proved call's form.

use reference::calls;

use super::Printer;

/// The second program as a printer.
pub struct Second;

impl Printer for Second {
    fn print(output: &mut [u8], bytes: &[u8], length: &mut usize) -> u8 {
        calls::run_text(output, bytes, length).err().unwrap_or(0)
    }
}
