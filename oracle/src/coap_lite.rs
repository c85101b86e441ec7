//! The files of coap-lite that the comparison asks, as one crate. `build` puts a copy of this root beside a link
//! `coap-lite` to the folder whose src/ has those files, so that they are compiled as they are.

#[macro_use]
extern crate alloc;

#[path = "coap-lite/src/block_handler/block_value.rs"]
pub mod block_value;
#[path = "coap-lite/src/error.rs"]
pub mod error;
#[path = "coap-lite/src/header.rs"]
mod header;
#[path = "coap-lite/src/option_value.rs"]
pub mod option_value;
#[path = "coap-lite/src/packet.rs"]
mod packet;

pub use header::{Header, HeaderRaw, MessageClass, MessageType, RequestType, ResponseType};
pub use packet::{CoapOption, ContentFormat, Packet};
