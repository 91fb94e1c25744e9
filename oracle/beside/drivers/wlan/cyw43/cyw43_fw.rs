//! Stands in for the firmware and its loading, which are left out.

use super::Cyw43Inner;
use crate::sys::device_driver::DevError;

pub(super) const CYW43_FW_LEN: usize = 0;
pub(super) const WIFI_NVRAM_LEN: usize = 0;
pub(super) static CYW43_FW: [u8; 0] = [];
pub(super) static WIFI_NVRAM: [u8; 0] = [];

impl Cyw43Inner {
    pub(super) fn download_firmware(
        &mut self,
        _fw: &[u8],
        _fw_len: usize,
        _nvram: &[u8],
        _nvram_len: usize,
    ) -> Result<(), DevError> {
        unreachable!("firmware loading is left out")
    }

    pub(super) fn clm_load(&mut self, _clm: &[u8]) -> Result<(), DevError> {
        unreachable!("firmware loading is left out")
    }
}
