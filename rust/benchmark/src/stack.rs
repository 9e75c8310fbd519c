//! How much stack the library needs, measured: each function runs on a painted stack of its own, and what is no longer paint
//! has been used.

/// An exported function and the deepest that the measured calls went, return address and stacked arguments included.
pub struct Depth {
    pub name: &'static str,
    pub bytes: usize,
}

#[cfg(not(all(target_arch = "x86_64", unix)))]
#[must_use]
pub fn depths() -> Vec<Depth> {
    Vec::new()
}

#[cfg(not(all(target_arch = "x86_64", unix)))]
#[must_use]
pub fn reader_depths() -> Vec<Depth> {
    Vec::new()
}

#[cfg(not(all(target_arch = "x86_64", unix)))]
#[must_use]
pub fn server_depths() -> Vec<Depth> {
    Vec::new()
}

#[cfg(all(target_arch = "x86_64", unix))]
pub use painted::{depths, reader_depths, server_depths};

#[cfg(all(target_arch = "x86_64", unix))]
mod painted {
    use std::arch::asm;

    use ivshmem::{Delivery, MAX_PEERS};
    use ivshmem_protocol::raw::{Answer, Progress, Served, Server, Started};
    use model::call::Call;
    use protocol_model::server::Act;

    use super::Depth;
    use crate::cases::{self, Case, SHARED_BYTES};
    use crate::messages::{self, Way};
    use crate::server_messages;

    // Only the addresses are used.
    unsafe extern "C" {
        fn ivshmem_set_up_hub();
        fn ivshmem_connect();
        fn ivshmem_disconnect();
        fn ivshmem_reset();
        fn ivshmem_configuration_read();
        fn ivshmem_configuration_write();
        fn ivshmem_register_read();
        fn ivshmem_register_write();
        fn ivshmem_msix_read();
        fn ivshmem_msix_write();
        fn ivshmem_section_question();
        fn ivshmem_load();
        fn ivshmem_store();
        fn ivshmem_protocol_read();
        fn ivshmem_protocol_start();
        fn ivshmem_protocol_join();
        fn ivshmem_protocol_leave();
    }

    type Function = unsafe extern "C" fn();

    /// In the order of [`model::call::KINDS`].
    const FUNCTIONS: [(&str, Function); 13] = [
        ("ivshmem_set_up_hub", ivshmem_set_up_hub),
        ("ivshmem_connect", ivshmem_connect),
        ("ivshmem_disconnect", ivshmem_disconnect),
        ("ivshmem_reset", ivshmem_reset),
        ("ivshmem_configuration_read", ivshmem_configuration_read),
        ("ivshmem_configuration_write", ivshmem_configuration_write),
        ("ivshmem_register_read", ivshmem_register_read),
        ("ivshmem_register_write", ivshmem_register_write),
        ("ivshmem_msix_read", ivshmem_msix_read),
        ("ivshmem_msix_write", ivshmem_msix_write),
        ("ivshmem_section_question", ivshmem_section_question),
        ("ivshmem_load", ivshmem_load),
        ("ivshmem_store", ivshmem_store),
    ];

    const IN_REGISTERS: usize = 6;
    const STACK_WORDS: usize = 8192;
    /// Records of the stream that the reader is measured with.
    const RECORDS: usize = 1000;
    const PAINT: u64 = 0x5ac3_96f0_1e2d_4b87;

    /// The memory that a call is lent, at addresses that stay.
    struct Memory {
        hub: Vec<u32>,
        region: Vec<u8>,
        table: [Delivery; MAX_PEERS],
        buffer: [u8; SHARED_BYTES],
        section: [u32; 5],
    }

    /// The deepest of all cases' calls, for every exported function.
    #[must_use]
    pub fn depths() -> Vec<Depth> {
        let mut deepest = FUNCTIONS.map(|(name, _)| Depth { name, bytes: 0 });
        for case in cases::SIZES.map(cases::all).iter().flatten().filter(|case| !case.empty) {
            for (k, call) in case.calls[0].iter().enumerate() {
                let bytes = case_depth(case, k);
                let depth = &mut deepest[call.kind()];
                depth.bytes = depth.bytes.max(bytes);
            }
        }
        deepest.into()
    }

    fn case_depth(case: &Case, k: usize) -> usize {
        let mut memory = Memory {
            hub: case.hubs[k].clone(),
            region: vec![0; case.region_bytes],
            table: [Delivery::default(); MAX_PEERS],
            buffer: [0; SHARED_BYTES],
            section: [0; 5],
        };
        let call = &case.calls[0][k];
        let arguments = arguments(call, &mut memory);
        // SAFETY: the function and its arguments belong together, as `ivshmem.h` declares them.
        unsafe { depth(FUNCTIONS[call.kind()].1, &arguments) }
    }

    /// The deepest call of the reader of the old server's messages: the benchmark's rows, on a shorter stream.
    #[must_use]
    pub fn reader_depths() -> Vec<Depth> {
        let stream = messages::stream(RECORDS);
        let mut deepest = Depth { name: "ivshmem_protocol_read", bytes: 0 };
        for case in messages::cases(&stream).iter().filter(|case| !case.empty) {
            let mut way = Way::new(case);
            while !way.is_at_end() {
                let _ = way.call(|progress, counts, vectors, input| {
                    let (answer, bytes) = read(progress, counts, vectors, input);
                    deepest.bytes = deepest.bytes.max(bytes);
                    answer
                });
            }
        }
        vec![deepest]
    }

    /// What the reader answers, and how deep it went.
    fn read(progress: Progress, counts: &mut [u8], vectors: u64, input: &[u8]) -> (Answer, usize) {
        let mut answer = Answer::default();
        // The answer is too large for registers: its place goes first. So is the progress record, which goes on the stack.
        let arguments = [
            &raw mut answer as u64,
            counts.as_mut_ptr() as u64,
            counts.len() as u64,
            vectors,
            input.as_ptr() as u64,
            input.len() as u64,
            u64::from(progress.due) | u64::from(progress.own) << 32,
            progress.held as u64,
            u64::from_le_bytes(progress.bytes),
        ];
        // SAFETY: the function and its arguments belong together, as `ivshmem_protocol.h` declares them.
        let bytes = unsafe { depth(ivshmem_protocol_read, &arguments) };
        (answer, bytes)
    }

    /// The deepest call of each kind of the server's side: the benchmark's rows.
    #[must_use]
    pub fn server_depths() -> Vec<Depth> {
        let names = ["ivshmem_protocol_start", "ivshmem_protocol_join", "ivshmem_protocol_leave"];
        let mut deepest = names.map(|name| Depth { name, bytes: 0 });
        for case in server_messages::cases().iter().filter(|case| !case.empty) {
            let calls = [(0, start(case.server.vectors)), serve(case)];
            for (kind, bytes) in calls {
                deepest[kind].bytes = deepest[kind].bytes.max(bytes);
            }
        }
        deepest.into()
    }

    /// How deep a start goes.
    fn start(vectors: u64) -> usize {
        // The answer is too large for registers: its place goes first.
        let mut started = Started::default();
        // SAFETY: the function and its arguments belong together, as `ivshmem_protocol.h` declares them.
        unsafe { depth(ivshmem_protocol_start, &[&raw mut started as u64, vectors]) }
    }

    /// Which call a case is, 1 a join and 2 a leave, and how deep it goes.
    fn serve(case: &server_messages::Case) -> (usize, usize) {
        let (mut served, mut buffer) = (Served::default(), vec![0u8; case.room]);
        let Server { joined, vectors } = case.server;
        let lent = [buffer.as_mut_ptr() as u64, buffer.len() as u64];
        // The answer is too large for registers: its place goes first. The state is in two.
        let first = [&raw mut served as u64, joined, vectors];
        let (kind, function, arguments): (_, Function, _) = match case.act {
            Act::Join => (1, ivshmem_protocol_join, [&first[..], &lent].concat()),
            Act::Leave(id) => (2, ivshmem_protocol_leave, [&first[..], &[id], &lent].concat()),
        };
        // SAFETY: the function and its arguments belong together, as `ivshmem_protocol.h` declares them.
        (kind, unsafe { depth(function, &arguments) })
    }

    /// The arguments of the C function, each as a 64-bit number.
    fn arguments(call: &Call, memory: &mut Memory) -> Vec<u64> {
        let hub = [memory.hub.as_mut_ptr() as u64, memory.hub.len() as u64];
        let region = [memory.region.as_mut_ptr() as u64, memory.region.len() as u64];
        let table = [memory.table.as_mut_ptr() as u64, MAX_PEERS as u64];
        let bytes = [memory.buffer.as_mut_ptr() as u64, SHARED_BYTES as u64];
        match *call {
            // The settings are too large for registers, and go on the stack; the two registers that are left hold anything.
            Call::SetUp(s) => {
                let sizes = [s.peers, s.vectors, s.state_table, s.read_write, s.output, s.base];
                let [protocol, vendor, id] = [s.protocol, s.subsystem_vendor, s.subsystem_id].map(u64::from);
                [&hub[..], &region, &[0, 0], &sizes, &[protocol | vendor << 16 | id << 32]].concat()
            }
            Call::Connect { id } => [&hub[..], &[id]].concat(),
            Call::Disconnect { id } | Call::Reset { id } => [&hub[..], &region, &table, &[id]].concat(),
            Call::ConfigurationRead { id, offset, width }
            | Call::RegisterRead { id, offset, width }
            | Call::MsixRead { id, offset, width } => [&hub[..], &[id, offset, width]].concat(),
            Call::ConfigurationWrite { id, offset, width, value } | Call::MsixWrite { id, offset, width, value } => {
                [&hub[..], &[id, offset, width, value.into()]].concat()
            }
            Call::RegisterWrite { id, offset, width, value } => {
                [&hub[..], &region, &table, &[id, offset, width, value.into()]].concat()
            }
            // The answer is too large for registers: its place goes first.
            Call::Section { id, offset, length } => {
                [&[memory.section.as_mut_ptr() as u64], &hub[..], &[id, offset, length]].concat()
            }
            Call::Load { id, offset, .. } | Call::Store { id, offset, .. } => {
                [&hub[..], &region, &[id, offset], &bytes].concat()
            }
        }
    }

    /// Calls the function on a painted stack; how many bytes below the stack's top it has written.
    ///
    /// # Safety
    /// The function may be called with these arguments by the C convention of the machine.
    unsafe fn depth(function: Function, arguments: &[u64]) -> usize {
        let mut registers = [0; IN_REGISTERS];
        let (first, rest) = arguments.split_at(arguments.len().min(IN_REGISTERS));
        registers[..first.len()].copy_from_slice(first);
        let mut stack = vec![PAINT; STACK_WORDS];
        // The stack is aligned to 16 bytes where the function is called.
        let mut top = STACK_WORDS - rest.len();
        while (&raw const stack[top - 1]).addr() % 16 != 8 {
            top -= 1;
        }
        stack[top..top + rest.len()].copy_from_slice(rest);
        // SAFETY: the caller answers for function and arguments; the stack is long enough, and the old one is put back.
        unsafe { call_on(stack.as_mut_ptr().add(top), function, &registers) };
        let untouched = stack.iter().take_while(|word| **word == PAINT).count();
        8 * (top + rest.len() - untouched)
    }

    #[inline(never)]
    unsafe fn call_on(top: *mut u64, function: Function, registers: &[u64; IN_REGISTERS]) {
        let [a, b, c, d, e, f] = *registers;
        // SAFETY: r12 keeps the stack over the call, since the callee preserves it.
        unsafe {
            asm!(
                "mov r12, rsp",
                "mov rsp, {top}",
                "call {function}",
                "mov rsp, r12",
                top = in(reg) top,
                function = in(reg) function,
                inout("rdi") a => _, inout("rsi") b => _, inout("rdx") c => _,
                inout("rcx") d => _, inout("r8") e => _, inout("r9") f => _,
                out("r12") _,
                clobber_abi("C"),
            );
        }
    }
}
