//! The calls of include/shelf.h and of include/small.h: the same rules, each for one width of the permission table's
//! rows.

use crate::tables::{LARGE, SMALL};

/// All calls of one header. They are made here and not where they are used, so that other crates call what was compiled
/// together with the rules.
macro_rules! shelf {
    ($shelf:ident, $width:ident) => {
        pub mod $shelf {
            use super::$width;
            use crate::{broadcast, bytewise, chains, open, permission, saved, sheets, smp, straight};
            use crate::{Answered, Exported, Imported, Loaded, Opened, Saved, Told};

            pub use crate::links::{elect, identify, leaving};

            pub fn start_up(permissions: &mut [u8]) -> u32 {
                permission::start_up::<$width>(permissions)
            }

            pub fn open(
                phys: &[u8],
                routes: &[u8],
                permissions: &[u8],
                phy: u32,
                frame: &[u8],
                out: &mut [u8],
            ) -> Opened {
                open::open::<$width>(phys, routes, permissions, phy, frame, out)
            }

            pub fn primitive(
                phys: &[u8],
                permissions: &[u8],
                phy: u32,
                number: u32,
                set: &mut [u8],
                out: &mut [u8],
            ) -> Told {
                broadcast::primitive::<$width>(phys, permissions, phy, number, set, out)
            }

            pub fn broadcast_frame(
                phys: &[u8],
                permissions: &[u8],
                phy: u32,
                frame: &[u8],
                set: &mut [u8],
                out: &mut [u8],
            ) -> Told {
                broadcast::broadcast_frame::<$width>(phys, permissions, phy, frame, set, out)
            }

            #[allow(clippy::too_many_arguments, reason = "they are the header's")]
            pub fn smp(
                phys: &mut [u8],
                permissions: &mut [u8],
                phy: u32,
                carried: u32,
                expander_changes: u32,
                phy_changes: u32,
                request: &[u8],
                response: &mut [u8],
                set: &mut [u8],
            ) -> Answered {
                smp::smp::<$width>(
                    phys,
                    permissions,
                    phy,
                    carried,
                    expander_changes,
                    phy_changes,
                    request,
                    response,
                    set,
                )
            }

            pub fn import(phys: &[u8], permissions: &mut [u8], phy: u32, carried: u32, sheet: &[u8]) -> Imported {
                sheets::import::<$width>(phys, permissions, phy, carried, sheet)
            }

            pub fn export(permissions: &[u8], sheet: &mut [u8]) -> Exported {
                sheets::export::<$width>(permissions, sheet)
            }

            pub fn save_version_1(permissions: &[u8], file: &mut [u8]) -> Saved {
                saved::save_version_1::<$width>(permissions, file)
            }

            pub fn save_version_2(phys: &[u8], permissions: &[u8], file: &mut [u8]) -> Saved {
                saved::save_version_2::<$width>(phys, permissions, file)
            }

            pub fn load_version_1(permissions: &mut [u8], file: &[u8]) -> Loaded {
                saved::load_version_1::<$width>(permissions, file)
            }

            pub fn load_version_2(phys: &mut [u8], permissions: &mut [u8], file: &[u8]) -> Loaded {
                saved::load_version_2::<$width>(phys, permissions, file)
            }

            /// Another way to the same answer, for timing only.
            pub fn primitive_by_chains(
                phys: &[u8],
                permissions: &[u8],
                phy: u32,
                number: u32,
                set: &mut [u8],
                out: &mut [u8],
            ) -> Told {
                chains::primitive::<$width>(phys, permissions, phy, number, set, out)
            }

            /// Another way to the same answer, for timing only.
            pub fn broadcast_frame_by_chains(
                phys: &[u8],
                permissions: &[u8],
                phy: u32,
                frame: &[u8],
                set: &mut [u8],
                out: &mut [u8],
            ) -> Told {
                chains::broadcast_frame::<$width>(phys, permissions, phy, frame, set, out)
            }

            /// Another way to the same answer, for timing only.
            pub fn import_by_bytes(
                phys: &[u8],
                permissions: &mut [u8],
                phy: u32,
                carried: u32,
                sheet: &[u8],
            ) -> Imported {
                bytewise::import::<$width>(phys, permissions, phy, carried, sheet)
            }

            /// Another way to the same answer, for timing only.
            pub fn export_by_bytes(permissions: &[u8], sheet: &mut [u8]) -> Exported {
                bytewise::export::<$width>(permissions, sheet)
            }

            /// Another way to the same answer, for timing only.
            pub fn save_version_1_straight(permissions: &[u8], file: &mut [u8]) -> Saved {
                straight::save_version_1::<$width>(permissions, file)
            }

            /// Another way to the same answer, for timing only.
            pub fn save_version_2_straight(phys: &[u8], permissions: &[u8], file: &mut [u8]) -> Saved {
                straight::save_version_2::<$width>(phys, permissions, file)
            }

            /// Another way to the same answer, for timing only.
            pub fn load_version_1_straight(permissions: &mut [u8], file: &[u8]) -> Loaded {
                straight::load_version_1::<$width>(permissions, file)
            }

            /// Another way to the same answer, for timing only.
            pub fn load_version_2_straight(phys: &mut [u8], permissions: &mut [u8], file: &[u8]) -> Loaded {
                straight::load_version_2::<$width>(phys, permissions, file)
            }
        }
    };
}

shelf!(large, LARGE);
shelf!(small, SMALL);
