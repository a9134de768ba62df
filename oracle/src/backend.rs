//! The places at which iso.rs and non_iso.rs look for their neighbours.

pub(crate) mod kmod {
    pub(crate) use crate::shim_dma::Kernel;

    pub(crate) mod dwc2 {
        pub(crate) use crate::shim_words::{
            Dwc2EpType, Dwc2Pid, Dwc2TransferFault, dma_addr32, endpoint_number, fault_to_transfer_error, hcchar, hcint_fault, hctsiz_ddma,
        };

        pub(crate) mod dma {
            pub(crate) use crate::shim_dma::{DmaDescriptors, Dwc2DmaBuffer, Dwc2DmaBufferPool};
            pub(crate) use crate::shim_words::{DmaDescriptor, initial_len};
        }

        pub(crate) mod reg {
            pub(crate) use crate::shim_regs::*;
        }

        pub(crate) mod stats {
            pub(crate) use crate::shim_channel::Dwc2Stats;
        }

        #[allow(dead_code, unused)]
        pub(crate) mod channel {
            pub(crate) use crate::shim_channel::{ChannelConfig, ChannelLease, HostChannelPool};
            include!(concat!(env!("OUT_DIR"), "/channel_mods.rs"));
        }
    }
}
