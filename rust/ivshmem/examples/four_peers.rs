//! Four guests on one hub: a doorbell, a state change, a one-shot interrupt and a guest that leaves. No guest has the region
//! mapped here, so it may be lent as a slice.

use ivshmem::{Delivery, Hub, PeerId, Refusal, Settings, Vector, configuration, hub_words, msix, register};

const PEERS: u16 = 4;
const VECTORS: u16 = 2;

struct Host<'a> {
    hub: Hub<'a>,
    region: Vec<u8>,
    table: [Delivery; PEERS as usize],
}

impl<'a> Host<'a> {
    fn new(words: &'a mut [u32]) -> Result<Host<'a>, Refusal> {
        let settings = Settings {
            peers: PEERS.into(),
            vectors: VECTORS.into(),
            state_table: 4096,
            read_write: 4096,
            output: 4096,
            base: 0x1_0000_0000,
            protocol: 1,
            ..Settings::default()
        };
        let mut region = vec![0; settings.total().ok_or(Refusal::BadSetting)?];
        let hub = Hub::set_up(words, &settings, &mut region)?;
        Ok(Host { hub, region, table: Default::default() })
    }

    /// What a guest's driver does when it finds the device.
    fn boot(&mut self, peer: PeerId) -> Result<(), Refusal> {
        self.hub.connect(peer)?;
        let on = configuration::COMMAND_MEMORY | configuration::COMMAND_BUS_MASTER;
        self.hub.configuration_write(peer, configuration::COMMAND, 2, on)?;
        self.hub.configuration_write(peer, configuration::MESSAGE_CONTROL, 2, configuration::MESSAGE_ENABLE)?;
        for vector in 0..VECTORS {
            let entry = msix::ENTRY_BYTES * u64::from(vector);
            self.hub.msix_write(peer, entry + msix::ADDRESS_LOW, 4, 0xfee0_0000)?;
            self.hub.msix_write(peer, entry + msix::DATA, 4, 0x40 + u32::from(peer.0))?;
            self.hub.msix_write(peer, entry + msix::CONTROL, 4, 0)?;
        }
        self.write("switches interrupts on", peer, register::INTERRUPT_CONTROL, 1)
    }

    fn write(&mut self, what: &str, peer: PeerId, offset: u64, value: u32) -> Result<(), Refusal> {
        let delivered = self.hub.register_write(&mut self.region, &mut self.table, peer, offset, 4, value)?;
        report(peer, what, delivered);
        Ok(())
    }

    fn leave(&mut self, peer: PeerId) -> Result<(), Refusal> {
        let delivered = self.hub.disconnect(&mut self.region, &mut self.table, peer)?;
        report(peer, "leaves", delivered);
        Ok(())
    }
}

fn report(peer: PeerId, what: &str, delivered: &[Delivery]) {
    println!("peer {peer} {what}");
    for Delivery { address, data, target, vector } in delivered {
        println!("    interrupt for peer {target}: vector {vector}, message {data:#x} to {address:#x}");
    }
}

fn main() -> Result<(), Refusal> {
    let mut words = [0; hub_words(PEERS as usize, VECTORS as usize)];
    let mut host = Host::new(&mut words)?;
    for id in 0..PEERS {
        host.boot(PeerId(id))?;
    }
    let ring = register::doorbell(PeerId(3), Vector(1));
    host.write("rings vector 1 of peer 3", PeerId(0), register::DOORBELL, ring)?;
    host.write("sets its state to 5", PeerId(1), register::STATE, 5)?;
    host.write("sets it to 5 again, which is no change", PeerId(1), register::STATE, 5)?;

    // Peer 3 asks for one-shot interrupts: the next delivery switches its Interrupt Control off.
    let one_shot = configuration::PRIVILEGED_ONE_SHOT;
    host.hub.configuration_write(PeerId(3), configuration::PRIVILEGED_CONTROL, 1, one_shot)?;
    host.write("rings vector 1 of peer 3, now one-shot", PeerId(0), register::DOORBELL, ring)?;
    host.write("rings it again, before peer 3 is ready", PeerId(0), register::DOORBELL, ring)?;

    host.leave(PeerId(1))?;
    match host.hub.store(&mut host.region, PeerId(0), 3 * 4096, b"mine?") {
        Ok(()) => println!("peer 0 stored to the output section of peer 1"),
        Err(refusal) => println!("peer 0 stores to the output section of peer 1: refused, {refusal}"),
    }
    Ok(())
}
