//! The library's calls, with slices in place of pointers and lengths: those of include/shelf.h, of include/small.h and of
//! include/console.h.
//!
//! A slice's pointer is never null and good for its length, and `&mut` keeps written buffers apart from all others:
//! that is all that the headers ask.

type In = *const u8;
type Out = *mut u8;

/// Calls that take no permission table, and so are the same on both shelves.
pub mod links {
    use super::{In, Out};
    use second::Elected;

    mod c {
        #[repr(C)]
        pub struct Elected {
            pub refusal: u32,
            pub priority: u32,
            pub address: u64,
        }
    }

    extern "C" {
        fn shelf_leaving(phys: Out, n: usize, phy: u32) -> u32;
        fn shelf_identify(
            phys: Out,
            n: usize,
            phy: u32,
            address: In,
            m: usize,
            device_type: u32,
            attached_phy: u32,
        ) -> u32;
        fn shelf_elect(phys: In, n: usize, routes: In, m: usize) -> c::Elected;
    }

    pub fn leaving(phys: &mut [u8], phy: u32) -> u32 {
        unsafe { shelf_leaving(phys.as_mut_ptr(), phys.len(), phy) }
    }

    pub fn identify(phys: &mut [u8], phy: u32, address: &[u8], device_type: u32, attached_phy: u32) -> u32 {
        let (n, m) = (phys.len(), address.len());
        unsafe { shelf_identify(phys.as_mut_ptr(), n, phy, address.as_ptr(), m, device_type, attached_phy) }
    }

    pub fn elect(phys: &[u8], routes: &[u8]) -> Elected {
        let c::Elected { refusal, priority, address } =
            unsafe { shelf_elect(phys.as_ptr(), phys.len(), routes.as_ptr(), routes.len()) };
        Elected { refusal, priority, address }
    }
}

/// The console's calls, which take no table.
pub mod console {
    use super::{In, Out};
    use second::console::{Built, Heard};

    mod c {
        #[repr(C)]
        pub struct Built {
            pub refusal: u32,
            pub length: u32,
        }

        #[repr(C)]
        pub struct Heard {
            pub refusal: u32,
            pub function: u32,
            pub result: u32,
            pub start: u32,
            pub count: u32,
        }
    }

    extern "C" {
        fn console_phy_zones(request: Out, n: usize, first_phy: u32, entries: In, m: usize) -> c::Built;
        fn console_single(request: Out, n: usize, a: u32, b: u32, on: u32, complete: u32) -> c::Built;
        fn console_batch(request: Out, n: usize, first_group: u32, choices: In, m: usize, complete: u32) -> c::Built;
        fn console_report(request: Out, n: usize, first_group: u32, count: u32) -> c::Built;
        #[cfg(target_arch = "x86_64")]
        fn console_read(response: In, n: usize, rows: Out, m: usize) -> c::Heard;
        // The bitcode is x86-64's, where a struct this large is written through a pointer that comes first. Another machine's
        // convention has another place for it.
        #[cfg(not(target_arch = "x86_64"))]
        fn console_read(heard: *mut c::Heard, response: In, n: usize, rows: Out, m: usize);
    }

    #[cfg(target_arch = "x86_64")]
    fn heard(response: &[u8], rows: &mut [u8]) -> c::Heard {
        unsafe { console_read(response.as_ptr(), response.len(), rows.as_mut_ptr(), rows.len()) }
    }

    #[cfg(not(target_arch = "x86_64"))]
    fn heard(response: &[u8], rows: &mut [u8]) -> c::Heard {
        let mut heard = c::Heard { refusal: 0, function: 0, result: 0, start: 0, count: 0 };
        unsafe { console_read(&mut heard, response.as_ptr(), response.len(), rows.as_mut_ptr(), rows.len()) }
        heard
    }

    fn built(c::Built { refusal, length }: c::Built) -> Built {
        Built { refusal, length }
    }

    pub fn phy_zones(request: &mut [u8], first_phy: u32, entries: &[u8]) -> Built {
        let (n, m) = (request.len(), entries.len());
        built(unsafe { console_phy_zones(request.as_mut_ptr(), n, first_phy, entries.as_ptr(), m) })
    }

    pub fn single(request: &mut [u8], a: u32, b: u32, on: u32, complete: u32) -> Built {
        built(unsafe { console_single(request.as_mut_ptr(), request.len(), a, b, on, complete) })
    }

    pub fn batch(request: &mut [u8], first_group: u32, choices: &[u8], complete: u32) -> Built {
        let (n, m) = (request.len(), choices.len());
        built(unsafe { console_batch(request.as_mut_ptr(), n, first_group, choices.as_ptr(), m, complete) })
    }

    pub fn report(request: &mut [u8], first_group: u32, count: u32) -> Built {
        built(unsafe { console_report(request.as_mut_ptr(), request.len(), first_group, count) })
    }

    pub fn read(response: &[u8], rows: &mut [u8]) -> Heard {
        let c::Heard { refusal, function, result, start, count } = heard(response, rows);
        Heard { refusal, function, result, start, count }
    }
}

/// What the calls answer in C, whatever their names start with.
mod c {
    #[repr(C)]
    pub struct Opened {
        pub refusal: u32,
        pub outcome: u32,
        pub phy: u32,
    }

    #[repr(C)]
    pub struct Told {
        pub refusal: u32,
        pub count: u32,
    }

    #[repr(C)]
    pub struct Answered {
        pub refusal: u32,
        pub result: u32,
        pub length: u32,
        pub count: u32,
    }

    #[repr(C)]
    pub struct Imported {
        pub refusal: u32,
        pub lines: u32,
        pub cause: u32,
    }

    #[repr(C)]
    pub struct Exported {
        pub refusal: u32,
        pub length: u32,
    }

    #[repr(C)]
    pub struct Saved {
        pub refusal: u32,
        pub length: u32,
    }

    #[repr(C)]
    pub struct Loaded {
        pub refusal: u32,
        pub version: u32,
    }
}

/// A shelf's calls that take a permission table. Their names in C start with the prefix.
macro_rules! shelf {
    ($shelf:ident, $prefix:literal) => {
        pub mod $shelf {
            use super::{c, In, Out};
            use second::{Answered, Exported, Imported, Loaded, Opened, Saved, Told};

            mod named {
                use super::{c, In, Out};

                extern "C" {
                    #[link_name = concat!($prefix, "start_up")]
                    pub fn start_up(permissions: Out, n: usize) -> u32;
                    #[link_name = concat!($prefix, "open")]
                    pub fn open(
                        phys: In,
                        n: usize,
                        routes: In,
                        m: usize,
                        permissions: In,
                        k: usize,
                        phy: u32,
                        frame: In,
                        l: usize,
                        out: Out,
                        o: usize,
                    ) -> c::Opened;
                    #[link_name = concat!($prefix, "primitive")]
                    pub fn primitive(
                        phys: In,
                        n: usize,
                        permissions: In,
                        m: usize,
                        phy: u32,
                        number: u32,
                        set: Out,
                        s: usize,
                        out: Out,
                        o: usize,
                    ) -> c::Told;
                    #[link_name = concat!($prefix, "broadcast_frame")]
                    pub fn broadcast_frame(
                        phys: In,
                        n: usize,
                        permissions: In,
                        m: usize,
                        phy: u32,
                        frame: In,
                        l: usize,
                        set: Out,
                        s: usize,
                        out: Out,
                        o: usize,
                    ) -> c::Told;
                    #[link_name = concat!($prefix, "smp")]
                    pub fn smp(
                        phys: Out,
                        n: usize,
                        permissions: Out,
                        m: usize,
                        phy: u32,
                        carried: u32,
                        expander_changes: u32,
                        phy_changes: u32,
                        request: In,
                        q: usize,
                        response: Out,
                        r: usize,
                        set: Out,
                        s: usize,
                    ) -> c::Answered;
                    #[link_name = concat!($prefix, "import")]
                    pub fn import(
                        phys: In,
                        n: usize,
                        permissions: Out,
                        m: usize,
                        phy: u32,
                        carried: u32,
                        sheet: In,
                        s: usize,
                    ) -> c::Imported;
                    #[link_name = concat!($prefix, "export")]
                    pub fn export(permissions: In, n: usize, sheet: Out, s: usize) -> c::Exported;
                    #[link_name = concat!($prefix, "save_version_1")]
                    pub fn save_version_1(permissions: In, n: usize, file: Out, f: usize) -> c::Saved;
                    #[link_name = concat!($prefix, "save_version_2")]
                    pub fn save_version_2(
                        phys: In,
                        n: usize,
                        permissions: In,
                        m: usize,
                        file: Out,
                        f: usize,
                    ) -> c::Saved;
                    #[link_name = concat!($prefix, "load_version_1")]
                    pub fn load_version_1(permissions: Out, n: usize, file: In, f: usize) -> c::Loaded;
                    #[link_name = concat!($prefix, "load_version_2")]
                    pub fn load_version_2(
                        phys: Out,
                        n: usize,
                        permissions: Out,
                        m: usize,
                        file: In,
                        f: usize,
                    ) -> c::Loaded;
                }
            }

            pub fn start_up(permissions: &mut [u8]) -> u32 {
                unsafe { named::start_up(permissions.as_mut_ptr(), permissions.len()) }
            }

            pub fn open(
                phys: &[u8],
                routes: &[u8],
                permissions: &[u8],
                phy: u32,
                frame: &[u8],
                out: &mut [u8],
            ) -> Opened {
                let c::Opened { refusal, outcome, phy } = unsafe {
                    named::open(
                        phys.as_ptr(),
                        phys.len(),
                        routes.as_ptr(),
                        routes.len(),
                        permissions.as_ptr(),
                        permissions.len(),
                        phy,
                        frame.as_ptr(),
                        frame.len(),
                        out.as_mut_ptr(),
                        out.len(),
                    )
                };
                Opened { refusal, outcome, phy }
            }

            pub fn primitive(
                phys: &[u8],
                permissions: &[u8],
                phy: u32,
                number: u32,
                set: &mut [u8],
                out: &mut [u8],
            ) -> Told {
                let c::Told { refusal, count } = unsafe {
                    named::primitive(
                        phys.as_ptr(),
                        phys.len(),
                        permissions.as_ptr(),
                        permissions.len(),
                        phy,
                        number,
                        set.as_mut_ptr(),
                        set.len(),
                        out.as_mut_ptr(),
                        out.len(),
                    )
                };
                Told { refusal, count }
            }

            pub fn broadcast_frame(
                phys: &[u8],
                permissions: &[u8],
                phy: u32,
                frame: &[u8],
                set: &mut [u8],
                out: &mut [u8],
            ) -> Told {
                let c::Told { refusal, count } = unsafe {
                    named::broadcast_frame(
                        phys.as_ptr(),
                        phys.len(),
                        permissions.as_ptr(),
                        permissions.len(),
                        phy,
                        frame.as_ptr(),
                        frame.len(),
                        set.as_mut_ptr(),
                        set.len(),
                        out.as_mut_ptr(),
                        out.len(),
                    )
                };
                Told { refusal, count }
            }

            #[allow(clippy::too_many_arguments, reason = "they are the header's")]
            pub fn smp(
                phys: &mut [u8],
                permissions: &mut [u8],
                phy: u32,
                carried: u32,
                expander_changes: u32,
                phy_changes: u32,
                request: &[u8],
                response: &mut [u8],
                set: &mut [u8],
            ) -> Answered {
                let c::Answered { refusal, result, length, count } = unsafe {
                    named::smp(
                        phys.as_mut_ptr(),
                        phys.len(),
                        permissions.as_mut_ptr(),
                        permissions.len(),
                        phy,
                        carried,
                        expander_changes,
                        phy_changes,
                        request.as_ptr(),
                        request.len(),
                        response.as_mut_ptr(),
                        response.len(),
                        set.as_mut_ptr(),
                        set.len(),
                    )
                };
                Answered { refusal, result, length, count }
            }

            pub fn import(phys: &[u8], permissions: &mut [u8], phy: u32, carried: u32, sheet: &[u8]) -> Imported {
                let c::Imported { refusal, lines, cause } = unsafe {
                    named::import(
                        phys.as_ptr(),
                        phys.len(),
                        permissions.as_mut_ptr(),
                        permissions.len(),
                        phy,
                        carried,
                        sheet.as_ptr(),
                        sheet.len(),
                    )
                };
                Imported { refusal, lines, cause }
            }

            pub fn export(permissions: &[u8], sheet: &mut [u8]) -> Exported {
                let (n, s) = (permissions.len(), sheet.len());
                let c::Exported { refusal, length } =
                    unsafe { named::export(permissions.as_ptr(), n, sheet.as_mut_ptr(), s) };
                Exported { refusal, length }
            }

            pub fn save_version_1(permissions: &[u8], file: &mut [u8]) -> Saved {
                let (n, f) = (permissions.len(), file.len());
                let c::Saved { refusal, length } =
                    unsafe { named::save_version_1(permissions.as_ptr(), n, file.as_mut_ptr(), f) };
                Saved { refusal, length }
            }

            pub fn save_version_2(phys: &[u8], permissions: &[u8], file: &mut [u8]) -> Saved {
                let (n, m, f) = (phys.len(), permissions.len(), file.len());
                let c::Saved { refusal, length } =
                    unsafe { named::save_version_2(phys.as_ptr(), n, permissions.as_ptr(), m, file.as_mut_ptr(), f) };
                Saved { refusal, length }
            }

            pub fn load_version_1(permissions: &mut [u8], file: &[u8]) -> Loaded {
                let (n, f) = (permissions.len(), file.len());
                let c::Loaded { refusal, version } =
                    unsafe { named::load_version_1(permissions.as_mut_ptr(), n, file.as_ptr(), f) };
                Loaded { refusal, version }
            }

            pub fn load_version_2(phys: &mut [u8], permissions: &mut [u8], file: &[u8]) -> Loaded {
                let (n, m, f) = (phys.len(), permissions.len(), file.len());
                let c::Loaded { refusal, version } = unsafe {
                    named::load_version_2(phys.as_mut_ptr(), n, permissions.as_mut_ptr(), m, file.as_ptr(), f)
                };
                Loaded { refusal, version }
            }
        }
    };
}

shelf!(large, "shelf_");
shelf!(small, "small_");
