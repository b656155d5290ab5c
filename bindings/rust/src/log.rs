//! What allocators log, of any API.

use crate::{AllocatorDebugSettings, Level, Logger};
use std::fmt;

/// Which lines an allocator logs, and where they go, if they go anywhere.
#[derive(Clone, Debug)]
pub(crate) struct Log {
    pub(crate) settings: AllocatorDebugSettings,
    pub(crate) logger: Option<Logger>,
}

impl Log {
    pub(crate) fn new(settings: AllocatorDebugSettings, logger: Option<&Logger>) -> Self {
        Log { settings, logger: logger.cloned() }
    }

    /// A request, be it served or refused.
    pub(crate) fn requested(&self, name: &str, size: u64, alignment: u64) {
        self.debug(
            self.settings.log_allocations,
            format_args!("Allocating `{name}` of {size} bytes with an alignment of {alignment}."),
        );
    }

    /// An allocation that `free` was handed, be it freed or refused.
    pub(crate) fn freed(&self, name: &str) {
        self.debug(self.settings.log_frees, format_args!("Freeing `{name}`."));
    }

    /// A line about the device.
    pub(crate) fn device(&self, line: fmt::Arguments<'_>) {
        self.debug(self.settings.log_memory_information, line);
    }

    /// Live allocations as leaks, which are handed to what this calls; it says whether the host had memory for all.
    pub(crate) fn leaks<E>(&self, level: Level, tell: impl FnOnce(&mut dyn FnMut(&str)) -> Result<(), E>) {
        let Some(logger) = &self.logger else { return };
        if tell(&mut |text| logger.log(level, text)).is_err() {
            logger.log(level, "the host refused memory for further leaks");
        }
    }

    fn debug(&self, is_wanted: bool, line: fmt::Arguments<'_>) {
        if let (true, Some(logger)) = (is_wanted, &self.logger) {
            logger.log(Level::Debug, &line.to_string());
        }
    }
}
