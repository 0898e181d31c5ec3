//! The leaves of the published code: its own functions, and expressions cut out of the span.

pub use crate::bitalloc::{QuantClass, class_of_quantization};
pub use crate::mc::{
    reference_lfe_sample as lfe_sample, reference_pred_coef as pred_coef,
    reference_requantize_lfe as requantize_lfe,
};
pub use crate::requant::{degroup, requantize_code};
pub use crate::tables::SCALEFACTORS;
