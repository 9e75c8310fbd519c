//! Two guests on one hub, recorded: `cargo run -p ivshmem-log --example record LOG`, then `cargo run --bin explain LOG`.

use std::error::Error;
use std::fs::File;

use ivshmem::{Delivery, PeerId, Refusal, Settings, Vector, hub_words, msix, register};
use ivshmem_log::{Log, Recorder};

const FIRST: PeerId = PeerId(0);
const SECOND: PeerId = PeerId(1);

fn main() -> Result<(), Box<dyn Error>> {
    let Some(path) = std::env::args().nth(1) else { return Err("usage: record LOG".into()) };
    let mut log = Log::new(File::create(path)?);
    two_guests(&mut log)?;
    log.flush()?;
    println!("{} records; calls that are not in the log: {}", log.records(), log.noted());
    log.notes().iter().for_each(|note| println!("{note}"));
    Ok(())
}

fn two_guests(log: &mut Log<File>) -> Result<(), Box<dyn Error>> {
    let settings = Settings { output: 4096, ..Settings::default() };
    let (mut words, mut region, mut table) = ([0; hub_words(2, 1)], [0; 3 * 4096], [Delivery::default(); 2]);
    let mut hub = Recorder::set_up(&mut words, &settings, &mut region, log)?;
    for peer in [FIRST, SECOND] {
        hub.connect(peer)?;
        hub.configuration_write(peer, 0x04, 2, 0x0006)?;
    }
    hub.configuration_write(SECOND, 0x62, 2, 0x8000)?;
    hub.msix_write(SECOND, msix::ADDRESS_LOW, 4, 0xfee0_0000)?;
    hub.msix_write(SECOND, msix::DATA, 4, 0x41)?;
    hub.msix_write(SECOND, msix::CONTROL, 4, 0)?;
    hub.register_write(&mut region, &mut table, SECOND, register::INTERRUPT_CONTROL, 4, 1)?;

    hub.section_question(FIRST, 4096, 4096)?;
    hub.store(&mut region, FIRST, 4096, b"hi")?;
    hub.register_write(&mut region, &mut table, FIRST, register::DOORBELL, 4, register::doorbell(SECOND, Vector(0)))?;
    hub.load(&region, SECOND, 4096, &mut [0; 2])?;
    // The second guest answers in the wrong place.
    assert_eq!(hub.store(&mut region, SECOND, 4096, b"!"), Err(Refusal::ReadOnly));
    Ok(())
}
