//! Runs histories on a subject and on the model side by side.

use ivshmem::Settings;

use crate::call::{Call, Event};
use crate::count::Counts;
use crate::generate::Generator;
use crate::hub::Hub;
use crate::layout::decode;
use crate::shrink::{Failure, shrink};
use crate::subject::{Answer, Model, Subject};
use crate::world::World;

/// A subject and the model, each with its own memory.
pub struct Pair<S> {
    subject: S,
    model: Model,
    ours: World,
    models: World,
}

impl<S: Subject> Pair<S> {
    /// Both with fresh memory.
    pub fn new(subject: S) -> Pair<S> {
        Pair { subject, model: Model::default(), ours: World::default(), models: World::default() }
    }

    /// The memory, which both sides agree about after an event without a difference.
    pub fn world(&self) -> &World {
        &self.models
    }

    /// Puts other words in the hub's place, and makes the region as long as the settings ask.
    pub fn put(&mut self, words: &[u32], settings: &Settings) {
        for world in [&mut self.ours, &mut self.models] {
            world.fit(settings);
            world.set_hub_words(words);
        }
    }

    /// Lets the event happen on both sides and compares the answers and all memory; a call's answer.
    ///
    /// # Errors
    /// The first difference, in words.
    pub fn apply(&mut self, event: &Event, counts: &mut Counts) -> Result<Option<Answer>, String> {
        let ours = self.ours.apply(&mut self.subject, event);
        let models = self.models.apply(&mut self.model, event);
        if let (Event::Call(call, _), Some(answer)) = (event, &models) {
            counts.add(call, answer, &self.model);
        }
        if let (Some(ours), Some(models)) = (&ours, &models)
            && ours != models
        {
            return Err(format!("the answer is {ours}; the model's is {models}"));
        }
        if let (Event::Call(Call::SetUp(_), _), Some(Answer { number: 1.., .. })) = (event, &ours)
            && self.ours.lent_words().iter().any(|&word| word != 0)
        {
            return Err("a refused set-up leaves words that are not zero".into());
        }
        if is_asked_after(event, models.as_ref()) {
            self.ask(event, counts)?;
        }
        self.ours.difference(&self.models).map_or(Ok(models), Err)
    }

    /// Asks both sides the host's questions about the words that the last call was lent, as they are now, and about its peer.
    fn ask(&mut self, event: &Event, counts: &mut Counts) -> Result<(), String> {
        let id = if let Event::Call(call, _) = event { call.peer() } else { None }.unwrap_or_default();
        let Some(ours) = self.subject.ask(self.ours.lent_words(), id) else { return Ok(()) };
        let models = self.model.ask(self.models.lent_words(), id).expect("the model answers");
        counts.add_asked(&models);
        if ours == models { Ok(()) } else { Err(format!("asked about peer {id}: {ours:?}; the model says {models:?}")) }
    }

    fn next_event(&self, generator: &mut Generator) -> Event {
        if let Some(event) = generator.planned() {
            return event;
        }
        let hub = decode(self.models.hub_words()).unwrap_or(Hub::NONE);
        generator.next(&hub, self.models.total())
    }
}

/// Whether the host asks its questions after this event: where a call is refused, a hub is set up or broken, or a peer comes or
/// goes; of the rest, after configuration reads alone, since questions take as long as calls.
fn is_asked_after(event: &Event, answer: Option<&Answer>) -> bool {
    let refused = answer.is_some_and(|answer| answer.number != 0);
    match event {
        Event::Call(Call::SetUp(_) | Call::Connect { .. } | Call::Disconnect { .. } | Call::Reset { .. }, _) => true,
        Event::Call(Call::ConfigurationRead { .. }, _) => true,
        Event::Call(..) => refused,
        Event::Flip { .. } | Event::Plant(..) => true,
    }
}

/// Replays a history on fresh memory; the place and the words of the first difference.
pub fn replay<S: Subject>(subject: S, events: &[Event]) -> Option<(usize, String)> {
    let mut pair = Pair::new(subject);
    let mut counts = Counts::default();
    events.iter().enumerate().find_map(|(at, event)| Some((at, pair.apply(event, &mut counts).err()?)))
}

/// Makes `calls` calls or a few more in random histories and counts them.
///
/// # Errors
/// The first history that shows a difference, cut short.
pub fn run<S: Subject>(make: impl Fn() -> S, seed: u64, calls: u64) -> Result<Counts, Failure> {
    let mut counts = Counts::default();
    let mut generator = Generator::new(seed);
    while counts.total() < calls {
        let mut pair = Pair::new(make());
        let mut events = Vec::new();
        generator.begin();
        while !generator.finished() {
            let event = pair.next_event(&mut generator);
            events.push(event);
            let last = events.last().expect("just pushed");
            if pair.apply(last, &mut counts).is_err() {
                return Err(shrink(&|events| replay(make(), events), events));
            }
        }
    }
    Ok(counts)
}
