//! The comparison: it finds no difference where there is none, comes to every
//! answer, and notices wrong stores.
use model::faults::Fault;
use model::Reply;
use testing::call::{Call, Model, Store, Wrong, ANSWERS};
use testing::compare::{Comparison, Tally};
use testing::names::NAME_TAGS;
use testing::tags::{BYTE_TAGS, ROOM_TAGS};

fn compared(store: &impl Store, images: u64) -> Tally {
    let mut comparison = Comparison::new(store);
    comparison.run(5, images, false);
    comparison.tally
}

/// Places that random images come to seldom (testing::tags).
const PLACES: [&str; 22] = [
    "T = N",
    "T = 0 after the turn",
    "T = floor(h)",
    "chain ends at N",
    "START, next CLEAN at 0",
    "START, next START",
    "CLEAN head at 0",
    "CLEAN head, dirty free run",
    "CLEAN head, marked next",
    "superseded head, marked next",
    "torn wrap",
    "reserved, name cut",
    "reserved, content cut",
    "reserved after the turn",
    "put with marker",
    "put ends at N",
    "put fills its room",
    "put one byte too long",
    "put replaces F8",
    "sweep erases several",
    "sweep erases to N",
    "colliding names",
];

#[test]
fn the_model_equals_itself() {
    let tally = compared(&Model, 10_000);
    assert_eq!(tally.differ, 0, "{}", tally.report());
    for (kind, answers) in ANSWERS {
        for &answer in answers {
            assert!(tally.answered(kind, answer) >= 20, "{kind} {answer}\n{}", tally.report());
        }
    }
    for place in PLACES.into_iter().chain(BYTE_TAGS).chain(ROOM_TAGS).chain(NAME_TAGS) {
        assert!(tally.tagged(place) >= 10, "{place}\n{}", tally.report());
    }
}

#[test]
fn faults_are_noticed() {
    for fault in Fault::ALL.into_iter().chain(Fault::NAMES) {
        assert!(compared(&Wrong(fault), 10_000).differ > 0, "{fault:?} is not noticed");
    }
}

/// The model, with what it answers or leaves changed by a function.
struct Changed(fn(&Call, &mut Reply, &mut [u8]));

impl Store for Changed {
    fn call(&self, img: &mut [u8], call: &Call) -> Result<Reply, String> {
        let mut reply = call.run(img);
        (self.0)(call, &mut reply, img);
        Ok(reply)
    }
}

fn wrong_step_count(_: &Call, reply: &mut Reply, _: &mut [u8]) {
    reply.steps += (reply.answer == 0 && reply.steps > 24) as u64;
}

fn number_after_refusal(_: &Call, reply: &mut Reply, _: &mut [u8]) {
    reply.report.tail += (reply.answer == 6) as u64;
}

/// A reason that is taken for an offset.
fn reason_as_offset(call: &Call, reply: &mut Reply, _: &mut [u8]) {
    if matches!(call, Call::Get(_)) {
        reply.extent.offset += u64::from(reply.name.reason);
    }
}

fn reason_of_no_file(_: &Call, reply: &mut Reply, _: &mut [u8]) {
    reply.name.reason += (reply.answer == 2) as u32;
}

fn byte_after_refusal(_: &Call, reply: &mut Reply, img: &mut [u8]) {
    if reply.answer == 28 {
        *img.last_mut().expect("an image") = 0;
    }
}

fn tail_of_the_image_before(call: &Call, reply: &mut Reply, img: &mut [u8]) {
    // N where the chain has turned at N (decision 6)
    if matches!(call, Call::Mount(_)) && reply.answer == 0 && reply.report.tail == 0 {
        reply.report.tail = img.len() as u64;
    }
}

#[test]
fn changed_answers_are_noticed() {
    for change in [
        wrong_step_count,
        number_after_refusal,
        reason_as_offset,
        reason_of_no_file,
        byte_after_refusal,
        tail_of_the_image_before,
    ] {
        assert!(compared(&Changed(change), 10_000).differ > 0);
    }
}
