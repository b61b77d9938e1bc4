//! The proved calls, linked from the archive that `host/build`
//! writes; include/kernelstill.h says what each does.

use reader::Plan;

extern "C" {
    fn kernelstill_open(
        mask: u64,
        csr: u64,
        feen: u64,
        cnt: u64,
        cycle: u64,
        image: *mut u64,
        image_length: usize,
    ) -> u64;

    fn kernelstill_take(
        image: *mut u64,
        image_length: usize,
        input: *const u8,
        input_length: usize,
        first: usize,
        count: usize,
        store: *mut u32,
        store_length: usize,
        tray: *mut u8,
        tray_length: usize,
        list: *mut u64,
        list_length: usize,
        free: usize,
        result: *mut u64,
        result_length: usize,
    ) -> u64;

    fn kernelstill_accept(input: *const u8, input_length: usize, first: usize, count: usize)
        -> u64;

    fn kernelstill_compose(
        mask: u64,
        csr: u64,
        feen: u64,
        cnt: u64,
        orders: *const u64,
        orders_length: usize,
        frames: *const u8,
        frames_length: usize,
        output: *mut u8,
        output_length: usize,
    ) -> u64;

    fn kernelstill_reply(
        input: *const u8,
        input_length: usize,
        first: usize,
        count: usize,
        expected: u64,
        buffer: *mut u8,
        buffer_length: usize,
    ) -> u64;
}

/// Reads a reply off all bits of an input: number, verdict and count of bits in
/// one word.
pub fn reply(input: &[u8], expected: u64, buffer: &mut [u8]) -> u64 {
    unsafe {
        kernelstill_reply(
            input.as_ptr(),
            input.len(),
            0,
            8 * input.len(),
            expected,
            buffer.as_mut_ptr(),
            buffer.len(),
        )
    }
}

/// Composes by the default plan: number and count of bits, or an order's
/// number, in one word.
pub fn compose(orders: &[u64], frames: &[u8], output: &mut [u8]) -> u64 {
    let plan = Plan::DEFAULT;
    unsafe {
        kernelstill_compose(
            plan.mask.into(),
            plan.csr.into(),
            plan.feen.into(),
            plan.cnt.into(),
            orders.as_ptr(),
            orders.len(),
            frames.as_ptr(),
            frames.len(),
            output.as_mut_ptr(),
            output.len(),
        )
    }
}

/// Whether a stream is accepted: 0, or number and place in one word.
pub fn accept(input: &[u8], first: usize, count: usize) -> u64 {
    unsafe { kernelstill_accept(input.as_ptr(), input.len(), first, count) }
}

/// What a call is lent beside its input.
#[derive(Clone, PartialEq, Debug)]
pub struct Buffers {
    pub store: Vec<u32>,
    pub tray: Vec<u8>,
    pub list: Vec<u64>,
}

/// What a call answers: both are 0 where it is refused.
#[derive(Clone, Copy, PartialEq, Debug)]
pub struct Taken {
    pub bits: usize,
    pub records: usize,
}

/// A reader under way: its image, from an opening with the default plan at
/// cycle 0 on.
pub struct Reading([u64; 70]);

impl Reading {
    pub fn open() -> Reading {
        let mut image = [0; 70];
        // The separate reader's, so that the two open alike.
        let plan = Plan::DEFAULT;
        let opened = unsafe {
            kernelstill_open(
                plan.mask.into(),
                plan.csr.into(),
                plan.feen.into(),
                plan.cnt.into(),
                0,
                image.as_mut_ptr(),
                image.len(),
            )
        };
        assert_eq!(opened, 0, "the opening is refused");
        Reading(image)
    }

    /// Takes `count` bits from bit `first` on, records from word `free` on.
    pub fn take_into(
        &mut self,
        input: &[u8],
        first: usize,
        count: usize,
        b: &mut Buffers,
        free: usize,
    ) -> Taken {
        let mut result = [0; 3];
        // Each slice is lent for its call only, and no two overlap.
        unsafe {
            kernelstill_take(
                self.0.as_mut_ptr(),
                self.0.len(),
                input.as_ptr(),
                input.len(),
                first,
                count,
                b.store.as_mut_ptr(),
                b.store.len(),
                b.tray.as_mut_ptr(),
                b.tray.len(),
                b.list.as_mut_ptr(),
                b.list.len(),
                free,
                result.as_mut_ptr(),
                result.len(),
            )
        };
        Taken {
            bits: result[0] as usize,
            records: result[1] as usize,
        }
    }

    /// The same from the list's first word on: how many bits were taken.
    pub fn take(&mut self, input: &[u8], first: usize, count: usize, b: &mut Buffers) -> usize {
        self.take_into(input, first, count, b, 0).bits
    }
}

/// Opens with the default plan at cycle 0 and takes `count` bits from bit
/// `first` on.
pub fn take_fresh(input: &[u8], first: usize, count: usize, b: &mut Buffers, free: usize) -> Taken {
    Reading::open().take_into(input, first, count, b, free)
}
