// The crate's four files, and two stand-ins for what they name and do not contain. `run` puts them side by side.
pub mod data_storage;
pub mod deserializer;
pub mod dynamic_type;
pub mod error;
pub mod type_object;
pub mod type_support;
