//! The C interface of the proved loader's archive. Nothing checks these declarations against it.

use crate::answers::Loader;

#[cfg(archive)]
mod archive {
    use crate::answers::{Loader, StepAnswer};
    use crate::descriptors::Step;
    use crate::Refusal;

    #[link(name = "hagolstan", kind = "static")]
    extern "C" {
        fn hagolstan_examine(file: *const u8, file_length: usize) -> u64;
        fn hagolstan_facts(file: *const u8, file_length: usize) -> u64;
        fn hagolstan_load(
            file: *const u8,
            file_length: usize,
            bias: u64,
            memory: *mut u8,
            memory_length: usize,
            plane: *mut u8,
            plane_length: usize,
            choices: *const u8,
            choices_length: usize,
        ) -> u64;
        fn hagolstan_step(
            table: *const u8,
            table_length: usize,
            position: u64,
            end: u64,
            index: u64,
            words: *mut u8,
            words_length: usize,
        ) -> u64;
        fn hagolstan_write_table(
            addresses: *const u64,
            addresses_length: usize,
            sizes: *const u64,
            sizes_length: usize,
            buffer: *mut u8,
            buffer_length: usize,
        ) -> u64;
        fn hagolstan_pick_tags(
            addresses: *const u64,
            addresses_length: usize,
            sizes: *const u64,
            sizes_length: usize,
            random: *const u8,
            random_length: usize,
            excluded: u16,
            choices: *mut u8,
            choices_length: usize,
        ) -> u64;
    }

    pub struct Proved;

    impl Loader for Proved {
        fn examine(&self, file: &[u8]) -> u64 {
            // SAFETY: the call reads file_length bytes and keeps no pointer.
            unsafe { hagolstan_examine(file.as_ptr(), file.len()) }
        }

        fn facts(&self, file: &[u8]) -> u64 {
            // SAFETY: as above.
            unsafe { hagolstan_facts(file.as_ptr(), file.len()) }
        }

        fn load(
            &self,
            file: &[u8],
            bias: u64,
            memory: &mut [u8],
            plane: &mut [u8],
            choices: &[u8],
        ) -> u64 {
            // SAFETY: the slices are distinct, and the call stays inside their lengths.
            unsafe {
                hagolstan_load(
                    file.as_ptr(),
                    file.len(),
                    bias,
                    memory.as_mut_ptr(),
                    memory.len(),
                    plane.as_mut_ptr(),
                    plane.len(),
                    choices.as_ptr(),
                    choices.len(),
                )
            }
        }

        fn step(&self, table: &[u8], position: u64, end: u64, index: u64) -> Option<StepAnswer> {
            let mut words = [0u8; 32];
            // SAFETY: the call reads the table, writes the 32 bytes at most, and keeps no pointer.
            let answer = unsafe {
                hagolstan_step(
                    table.as_ptr(),
                    table.len(),
                    position,
                    end,
                    index,
                    words.as_mut_ptr(),
                    words.len(),
                )
            };
            let word = |i: usize| u64::from_le_bytes(words[8 * i..8 * i + 8].try_into().unwrap());
            Some(match answer {
                0 => Ok(Step::Finished),
                1 => Ok(Step::Global {
                    start: word(0),
                    granules: word(1),
                    position: word(2),
                    end: word(3),
                }),
                number => Err(Refusal { number: number as _, position: word(0) }),
            })
        }

        fn write_table(&self, addresses: &[u64], sizes: &[u64], buffer: &mut [u8]) -> u64 {
            // SAFETY: the slices are distinct, and the call stays inside their lengths.
            unsafe {
                hagolstan_write_table(
                    addresses.as_ptr(),
                    addresses.len(),
                    sizes.as_ptr(),
                    sizes.len(),
                    buffer.as_mut_ptr(),
                    buffer.len(),
                )
            }
        }

        fn pick_tags(
            &self,
            addresses: &[u64],
            sizes: &[u64],
            random: &[u8],
            excluded: u16,
            choices: &mut [u8],
        ) -> u64 {
            // SAFETY: as above.
            unsafe {
                hagolstan_pick_tags(
                    addresses.as_ptr(),
                    addresses.len(),
                    sizes.as_ptr(),
                    sizes.len(),
                    random.as_ptr(),
                    random.len(),
                    excluded,
                    choices.as_mut_ptr(),
                    choices.len(),
                )
            }
        }
    }
}

/// The proved loader, where this was built with HAGOLSTAN_LIB.
pub fn proved() -> Option<&'static dyn Loader> {
    #[cfg(archive)]
    return Some(&archive::Proved);
    #[cfg(not(archive))]
    None
}
