//! What comes out is compared with what Rust makes without the engine.
use hoxburen::{
    End, Entries, Fill, Flow, Input, Output, Pause, Reason, Refused, check, run, version,
};
use std::error::Error;

/// A chain: the first process feeds the channel x, the second writes y.
fn network(source: &str, kind: &str, sink: &str, capacity: u32) -> String {
    format!(
        "version = 1
process = [{{ name = 'i', kind = '{source}' }}, {{ name = 'k', {kind} }}, {{ name = 'o', kind = '{sink}' }}]
channel = [
    {{ name = 'x', from = 'i', to = 'k', capacity = {capacity} }},
    {{ name = 'y', from = 'k', to = 'o', capacity = {capacity} }},
]
"
    )
}

fn doubler(capacity: u32) -> String {
    network("input", "kind = 'scale', args = [2]", "drain", capacity)
}

fn open(text: &str) -> (Flow, Input, Output) {
    let flow = Flow::open(text, &["x"], &["y"]).unwrap();
    let (x, y) = (flow.input("x").unwrap(), flow.output("y").unwrap());
    (flow, x, y)
}

fn reason<T>(answer: Result<T, Refused>) -> Option<Reason> {
    answer.err().map(|it| it.reason())
}

#[test]
fn all_words_go_through() -> Result<(), Refused> {
    let (mut flow, x, y) = open(&doubler(3));
    let samples: Vec<u64> = (0..1000).collect();
    let (mut rest, mut doubled) = (&samples[..], Vec::new());
    while !rest.is_empty() {
        rest = &rest[flow.feed(x, rest)?..];
        flow.advance(u64::MAX);
        doubled.extend(flow.words(y));
    }
    assert_eq!(doubled, (0..1000).map(|it| 2 * it).collect::<Vec<_>>());
    Ok(())
}

#[test]
fn back_pressure() -> Result<(), Refused> {
    let (mut flow, x, y) = open(&doubler(2));
    assert_eq!(flow.verdict(), Pause::Cut);
    assert_eq!(flow.feed(x, &[1, 2, 3])?, 2);
    assert!(!flow.may_feed(x));
    assert_eq!(
        flow.input_fill(x)?,
        Fill {
            held: 2,
            capacity: 2
        }
    );
    assert_eq!(flow.advance(u64::MAX), Pause::Starved);
    assert!(flow.is_starved(x) && !flow.is_full(y));
    assert_eq!(flow.feed(x, &[3, 4, 5])?, 2);
    assert_eq!(flow.advance(u64::MAX), Pause::Blocked);
    assert!(flow.is_full(y));
    assert_eq!(
        flow.output_fill(y)?,
        Fill {
            held: 2,
            capacity: 2
        }
    );
    let mut words = [9; 5];
    assert_eq!(flow.drain(y, &mut words)?, 2);
    assert_eq!(words, [2, 4, 9, 9, 9]);
    flow.end_input(x)?;
    assert_eq!(flow.advance(u64::MAX), Pause::Over(End::Deadlock));
    assert_eq!(flow.words(y).collect::<Vec<_>>(), [6, 8]);
    // 4 words read and written, and 2 stops.
    assert_eq!(
        flow.entries(),
        Entries {
            all: 10,
            growths: 0
        }
    );
    assert_eq!(reason(flow.feed(x, &[1])), Some(Reason::Ended));
    Ok(())
}

#[test]
fn words_with_a_sign() -> Result<(), Refused> {
    let (mut flow, x, y) = open(&network("input", "kind = 'scale', args = [-1]", "drain", 4));
    assert_eq!(flow.feed_signed(x, &[1, -2, i64::MIN])?, 3);
    flow.advance(u64::MAX);
    let mut words = [7; 4];
    assert_eq!(flow.drain_signed(y, &mut words)?, 3);
    assert_eq!(words, [-1, 2, i64::MIN, 7]);
    Ok(())
}

#[test]
fn flags() -> Result<(), Refused> {
    let (mut flow, x, y) = open(&network("input_flags", "kind = 'not'", "drain_flags", 4));
    let refused = flow.feed(x, &[1, 0, 2, 1]).unwrap_err();
    assert_eq!(
        (refused.reason(), refused.number(), refused.taken()),
        (Reason::NoFlag, 36, 2)
    );
    flow.advance(u64::MAX);
    assert_eq!(flow.words(y).collect::<Vec<_>>(), [0, 1]);
    Ok(())
}

#[test]
fn a_flow_that_terminates() -> Result<(), Refused> {
    let (mut flow, x, y) = open(&network("input", "kind = 'take', args = [2]", "drain", 4));
    assert_eq!(flow.advance(0), Pause::Cut);
    assert_eq!(flow.feed(x, &[5, 6, 7])?, 3);
    assert_eq!(flow.advance(u64::MAX), Pause::Over(End::Terminated));
    assert_eq!(flow.words(y).collect::<Vec<_>>(), [5, 6]);
    assert_eq!(
        flow.report()?,
        "end terminated\nprocess i stopped\nprocess k stopped\nprocess o stopped\nchannel x left 1 capacity 4\nchannel y left 0 capacity 4\nentries 7 growths 0\n"
    );
    Ok(())
}

#[test]
fn channels_that_are_not_there() {
    let (mut flow, x, y) = open(&doubler(2));
    assert_eq!((x, y), (Input(0), Output(0)));
    assert_eq!(reason(flow.input("y")), Some(Reason::NoChannel));
    assert_eq!(reason(flow.output("x")), Some(Reason::NoChannel));
    assert_eq!(reason(flow.feed(Input(1), &[1])), Some(Reason::NoChannel));
    assert_eq!(
        reason(flow.drain(Output(usize::MAX), &mut [0])),
        Some(Reason::NoChannel)
    );
    assert_eq!(reason(flow.end_input(Input(1))), Some(Reason::NoChannel));
    assert_eq!(reason(flow.input_fill(Input(1))), Some(Reason::NoChannel));
    assert_eq!(reason(flow.output_fill(Output(1))), Some(Reason::NoChannel));
    assert!(!flow.may_feed(Input(1)) && !flow.is_starved(Input(1)) && !flow.is_full(Output(1)));
    assert_eq!(flow.words(Output(1)).next(), None);
    for (inputs, outputs, due) in [
        (&["z"][..], &[][..], Reason::NoInput),
        (&["y"], &[], Reason::NoInput),
        (&[""], &[], Reason::NoInput),
        (&["x x"], &[], Reason::NoInput),
        (&[], &["x"], Reason::NoOutput),
        (&["x", "x"], &[], Reason::Twice),
    ] {
        let refused = Flow::open(&doubler(2), inputs, outputs).unwrap_err();
        assert_eq!(refused.reason(), due, "{inputs:?} {outputs:?}");
        let error: &dyn Error = &refused;
        assert!(!error.to_string().is_empty());
    }
}

#[test]
fn refused_descriptions() {
    let text = doubler(2).replace("scale", "scael");
    for refused in [
        check(&text),
        run(&text).map(|_| ()),
        Flow::open(&text, &[], &[]).map(|_| ()),
    ] {
        let refused = refused.unwrap_err();
        assert_eq!((refused.reason(), refused.number()), (Reason::Kind, 6));
        assert!(refused.to_string().contains("scael"), "{refused}");
        assert!(format!("{refused:?}").contains("Kind"));
    }
    assert_eq!(check(&doubler(2)), Ok(()));
    // A message, or none, and a key that is longer than a short buffer.
    let long = format!("version = 1\n{} = 1\nprocess = []\n", "k".repeat(5000));
    assert_eq!(reason(check(&long)), Some(Reason::Keys));
}

#[test]
fn runs() -> Result<(), Refused> {
    let ran = run(&doubler(2))?;
    assert_eq!(ran.end, End::Deadlock);
    assert!(
        ran.report
            .starts_with("end deadlock\nprocess i stopped steps 1\n")
    );
    let endless = run(&network(
        "count_up",
        "kind = 'scale', args = [2]",
        "drain",
        2,
    ))?;
    assert_eq!(
        (endless.end, endless.report.as_str()),
        (End::Budget, "end budget\n")
    );
    Ok(())
}

#[test]
fn numbers_and_texts() {
    assert_eq!(version(), 100);
    assert_eq!(
        (
            Reason::Toml as u32,
            Reason::Step as u32,
            Reason::NoChannel as u32,
            Reason::Twice as u32
        ),
        (1, 17, 34, 40)
    );
    for text in [
        Pause::Cut.to_string(),
        Pause::Over(End::Ceiling).to_string(),
        End::Memory.to_string(),
        Reason::Memory.to_string(),
    ] {
        assert!(!text.is_empty());
    }
}
