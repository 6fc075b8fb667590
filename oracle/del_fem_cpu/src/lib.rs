//! The original files, built unchanged from the folder that `DEL_FEM_SRC` names.

include!(concat!(env!("OUT_DIR"), "/originals.rs"));
