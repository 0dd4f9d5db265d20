// Stands for src/recovery/gcongestion/bbr2/startup.rs, which is missing. A mode
// that can be made and named, and that is never run: see what is appended to
// mode.rs.

use super::network_model::BBRv2NetworkModel;

#[derive(Debug)]
pub(super) struct Startup {
    pub(super) model: BBRv2NetworkModel,
}
