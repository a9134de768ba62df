//! The USB types that the two files name.

pub mod descriptor {
    #[derive(Clone, Copy, Debug)]
    pub enum EndpointType {
        Control,
        Isochronous,
        Bulk,
        Interrupt,
    }
}

pub mod transfer {
    #[derive(Clone, Copy, Debug, PartialEq, Eq)]
    pub enum Direction {
        Out,
        In,
    }

    #[derive(Clone, Copy, Debug)]
    pub enum RequestType {
        Standard,
        Class,
        Vendor,
        Reserved,
    }

    #[derive(Clone, Copy, Debug)]
    pub enum Recipient {
        Device,
        Interface,
        Endpoint,
        Other,
    }

    /// USB 2.0, table 9-2: the recipient in bits 0 to 4, the type in 5 and 6, IN in 7.
    pub struct BmRequestType(u8);

    impl BmRequestType {
        pub fn new(direction: Direction, kind: RequestType, recipient: Recipient) -> BmRequestType {
            BmRequestType((direction as u8) << 7 | (kind as u8) << 5 | recipient as u8)
        }
    }

    impl From<BmRequestType> for u8 {
        fn from(value: BmRequestType) -> u8 {
            value.0
        }
    }
}

pub mod host {
    use super::transfer::{Recipient, RequestType};

    pub mod hub {
        #[derive(Clone, Copy, Debug, PartialEq, Eq)]
        pub enum Speed {
            Low,
            Full,
            High,
        }
    }

    #[derive(Clone, Copy, Debug)]
    pub struct ControlSetup {
        pub request_type: RequestType,
        pub recipient: Recipient,
        pub request: u8,
        pub value: u16,
        pub index: u16,
    }
}

pub mod err {
    use crate::shim_words::Dwc2TransferFault;

    #[derive(Debug)]
    pub enum TransferError {
        Disconnected,
        Cancelled,
        QueueFull,
        NotSupported,
        InvalidEndpoint,
        /// what a fault becomes is not in the text given
        Fault(Dwc2TransferFault, u32),
        /// what the pool answers without a channel is not in the text given
        NoChannel,
        /// what an address above 32 bits becomes is not in the text given
        Address,
        Other(crate::shim_macros::Text),
    }
}

pub mod endpoint {
    use super::{host::ControlSetup, transfer::Direction};

    #[derive(Clone, Copy, Debug, PartialEq, Eq)]
    pub struct RequestId(u64);

    impl RequestId {
        pub fn new(id: u64) -> RequestId {
            RequestId(id)
        }

        pub fn raw(&self) -> u64 {
            self.0
        }
    }

    #[derive(Clone, Copy, Debug, PartialEq, Eq)]
    pub enum TransferStatus {
        Completed,
        Error,
    }

    #[derive(Clone, Debug)]
    pub struct IsoPacketResult {
        pub requested_length: usize,
        pub actual_length: usize,
        pub status: TransferStatus,
    }

    #[derive(Clone, Debug)]
    pub struct TransferCompletion {
        pub request_id: RequestId,
        pub status: TransferStatus,
        pub actual_length: usize,
        pub iso_packets: Vec<IsoPacketResult>,
    }

    #[derive(Clone, Copy, Debug)]
    pub struct TransferBuffer {
        pub len: usize,
    }

    #[derive(Clone, Debug)]
    pub struct IsoPacket {
        pub length: usize,
    }

    #[derive(Clone, Debug)]
    pub enum TransferRequest {
        Control { setup: ControlSetup, direction: Direction, buffer: Option<TransferBuffer> },
        Bulk { direction: Direction, buffer: Option<TransferBuffer> },
        Interrupt { direction: Direction, buffer: Option<TransferBuffer> },
        Isochronous { direction: Direction, buffer: Option<TransferBuffer>, packets: Vec<IsoPacket> },
    }

    impl TransferRequest {
        pub fn direction(&self) -> Direction {
            match self {
                TransferRequest::Control { direction, .. }
                | TransferRequest::Bulk { direction, .. }
                | TransferRequest::Interrupt { direction, .. }
                | TransferRequest::Isochronous { direction, .. } => *direction,
            }
        }

        pub fn buffer(&self) -> Option<TransferBuffer> {
            match self {
                TransferRequest::Control { buffer, .. }
                | TransferRequest::Bulk { buffer, .. }
                | TransferRequest::Interrupt { buffer, .. }
                | TransferRequest::Isochronous { buffer, .. } => *buffer,
            }
        }

        pub fn iso_packets(&self) -> &[IsoPacket] {
            match self {
                TransferRequest::Isochronous { packets, .. } => packets,
                _ => &[],
            }
        }
    }
}
