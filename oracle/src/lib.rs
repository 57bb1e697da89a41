//! The harness around the Rust source: mock chips, the lab's records, the packet loop, and the
//! generator of records.

#[cfg(not(target_pointer_width = "64"))]
compile_error!("the domain of the comparison is the 64-bit build");

/// protocol.rs, shell.rs and storage.rs, compiled where they lie.
#[allow(dead_code)]
pub mod aic_upg {
    include!(concat!(env!("OUT_DIR"), "/aic_upg.rs"));
}

/// What storage.rs uses of the module spi_flash.
pub mod spi_flash {
    pub use nand::RawNandFlash;
    pub use nand::config::NandGeometry;

    /// NandGeometry's file as it is, and the text of the trait.
    #[allow(dead_code)]
    mod nand {
        include!(concat!(env!("OUT_DIR"), "/nand.rs"));

        /// Restated: the file of these two is not in the given text, and nothing here uses them.
        mod status {
            #[derive(Clone, Copy, Debug, PartialEq, Eq)]
            pub struct Configuration(u8);

            #[derive(Clone, Copy, Debug, PartialEq, Eq)]
            pub struct Protection(u8);

            impl Configuration {
                pub const fn from_byte(byte: u8) -> Self {
                    Self(byte)
                }
            }

            impl Protection {
                pub const fn from_byte(byte: u8) -> Self {
                    Self(byte)
                }
            }
        }
    }
}

pub mod chip;
pub mod crc;
pub mod make;
pub mod opening;
pub mod quiet;
pub mod record;
pub mod run;
pub mod scratch;
pub mod show;
pub mod shrink;
pub mod transport;
pub mod wrap;
