//! What rows can't say: bytes that are missing, names and parts of values, lists there and back, orders of entries, a stream.

use ergo_voting::ffi::{ergo_check_block_version, ergo_check_header_votes, ergo_replay};
use ergo_voting::*;

const QUIET: &[u8] = include_bytes!("../../../crates/replay/stdin");
const STREAMS: &str = concat!(env!("CARGO_MANIFEST_DIR"), "/../../crates/replay_streams/data");
const ID: [u8; 32] = [0xa5; 32];

fn mainnet() -> Table {
    Table::default_parameters(Network::Mainnet)
}

fn with(table: Table, entries: &[(u8, i32)]) -> Table {
    entries.iter().fold(table, |table, &(id, value)| table.with(id, Some(value)).expect("an entry of a table"))
}

#[test]
fn every_legal_header() {
    let all: Vec<[u8; 3]> = legal_votes().collect();
    assert_eq!((all.len(), all[0], all[all.len() - 1]), (381_787, [0; 3], [255, 254, 120]));
    assert!(all.is_sorted_by(|before, after| before < after) && check_headers(&all.concat()).is_ok());
}

#[test]
fn a_byte_past_the_end_counts_as_0() {
    assert_eq!([&[1, 1][..], &[], &[1, 2, 0, 1]].map(ergo_check_header_votes), [10, 0, 0], "the fourth is not looked at");
    assert_eq!([0, 59, 60].map(|size| ergo_check_block_version(&mainnet().to_bytes()[..size], 1)), [20, 16, 0]);
    let mut state = State::open(1_024, &mainnet()).expect("an opening").to_bytes();
    assert_eq!([94, 95].map(|size| ergo_replay(&mut state[..size], QUIET)), [21, 0]);
}

#[test]
fn tables_and_settings() {
    let ids = [1, 2, 3, 4, 5, 6, 7, 8, 9, 121, 122, 123];
    let table = with(Table::default(), &ids.map(|id| (id, -i32::from(id))));
    assert_eq!(table.to_bytes()[..], ids.map(|id| [1, 255, 255, 255, id.wrapping_neg()]).concat());
    let bytes = table.to_bytes().map(|byte| if byte == 1 { 9 } else { byte });
    assert_eq!((Table::from_bytes(&bytes), ids.map(|id| table.get(id))), (table, ids.map(|id| Some(-i32::from(id)))));
    assert_eq!([0, 10, 120, 124, 255].map(|id| (table.get(id), table.with(id, Some(1)))), [(None, None); 5]);
    assert_eq!(epoch_line(u32::MAX, &with(table, &[121, 122, 123].map(|id| (id, i32::MIN)))).len(), LONGEST_LINE);
    let settings = Settings { voting_length: 1, soft_fork_epochs: 2, activation_epochs: 3, version2_activation_height: 4 };
    assert_eq!(settings.to_bytes(), [0, 0, 0, 1, 0, 0, 0, 2, 0, 0, 0, 3, 0, 0, 0, 4]);
}

#[test]
fn records_and_states() {
    let (votes, mut state) = (QUIET.len() - MAINNET_VOTES_SIZE, State::open(1_024, &mainnet()).expect("an opening"));
    let RecordAt::Whole(record) = read_record(QUIET, MAINNET_VOTES_SIZE) else { panic!("a record") };
    assert_eq!((record.height, record.body, record.votes), (1_024, &QUIET[10..votes - 3], &QUIET[votes..]));
    assert_eq!([&[][..], &[2]].map(|bytes| read_record(bytes, MAINNET_VOTES_SIZE)), [RecordAt::Short(3), RecordAt::Malformed]);
    assert_eq!(Refusal::EntryDiffers { id: 3 }.to_string(), "a computed entry is missing or different in the extension: id 3");
    assert_eq!((state.settings(), state.table(), state.next_height()), (Settings::of(Network::Mainnet), mainnet(), 1_024));
    assert_eq!(state.replay(&[&QUIET[..votes], &[0, 255, 0, 255, 0, 0], &QUIET[votes + 6..]].concat()), Ok(()));
    assert_eq!((state.next_height(), state.tally().entries()), (2_048, vec![Entry { id: -1, count: 2 }]));
}

#[test]
fn bodies_and_updates_there_and_back() {
    let field = |size| Field { key: [0, 124], value: vec![7; size] };
    let fields = [vec![field(64)], vec![field(4); 9_200], vec![field(0), field(64)]].concat();
    let body = pack_extension_bytes(&ID, &fields).expect("a body");
    let read = parse_extension_bytes(&body).expect("a body");
    assert_eq!((read.header_id(), read.fields(), extract_disabling_rules_from_kv(&body)), (ID, fields, vec![7; 64]));
    let written = |size| pack_fields(&[field(0), field(size)]).map(|bytes| bytes[3..].to_vec());
    assert_eq!(written(64), Ok([vec![0, 124, 64], vec![7; 64]].concat()));
    assert_eq!([65, 255, 256, 70_000].map(written), [(); 4].map(|()| Err(Refusal::WrittenValueLong)));
    assert_eq!(pack_extension_bytes(&ID, &[field(256)]), Err(Refusal::WrittenValueLong));
    assert_eq!(pack_fields(&vec![field(0); 65_536]), Ok([0, 124, 0].repeat(65_536)));
    assert_eq!(pack_fields(&vec![field(65); 65_537]), Err(Refusal::InputLong));
    let status = |rule, raw: &[u8]| Status { rule, code: 9, raw: raw.to_vec() };
    let (rules, statuses) = (vec![u16::MAX; 9], vec![status(1_000, &[7, 8]), status(32_767, &[])]);
    let bytes = encode_validation_settings_update(&rules, &statuses).expect("an update");
    let read = parse_validation_settings_update(&bytes).expect("an update");
    assert_eq!((read.rules(), read.statuses()), (rules, statuses));
    let written = |count| encode_validation_settings_update(&[], &vec![status(1_000, &[]); count]).map(|bytes| bytes.len());
    assert_eq!([65_536, 65_537].map(written), [Ok(1 + 3 + 3 * 65_536), Err(Refusal::InputLong)]);
    let all: Parameters = (i8::MIN..=i8::MAX).map(|id| (id, i32::from(id))).collect();
    let body = pack_extension_bytes(&ID, &pack_parameters_to_kv(&all)).expect("a body");
    assert_eq!(parse_parameters_from_kv(&body), Ok(all.into_iter().filter(|(id, _)| *id != 124).collect()));
    let asked = mainnet().parameters();
    let body = pack_extension_bytes(&ID, &pack_parameters_to_kv(&asked)).expect("a body");
    assert_eq!((asked.len(), asked[&123], parse_parameters_from_kv(&body)), (9, 1, Ok(asked.clone())));
    assert_eq!((check_parameters_v6(&mainnet(), &asked), Table::default().parameters().len()), (Ok(()), 0));
}

#[test]
fn entries_in_any_order() {
    let old = with(mainnet(), &[(121, 28_979), (122, 1_024)]);
    let new = with(old, &[(1, 1_275_000), (3, 519_046), (8, 101), (123, 2)]);
    for order in 0..24 {
        let mut ids = vec![1, 120, -3, 8];
        let mut tally = [order / 6, order / 2 % 3, order % 2, 0].map(|at| Entry { id: ids.remove(at), count: 513 }).to_vec();
        tally.extend(vec![Entry { id: 2, count: 512 }; 70_000]);
        let asked = compute_boundary_parameters(&tally, &[1, 0xd7, 1, 0], &Settings::of(Network::Mainnet), 66_560, &old, false);
        assert_eq!(asked.map(|it| (it.table, it.activated.rules())), Ok((new, vec![215])));
    }
}

/// What program `replay` prints for a stream.
fn printed(mut stream: &[u8]) -> String {
    let (mut state, mut text, mut accepted) = (State::open(1_024, &mainnet()).expect("an opening"), head_line(), 0);
    while let RecordAt::Whole(record) = read_record(stream, MAINNET_VOTES_SIZE) {
        if let Err(refusal) = state.replay(record.bytes) {
            return text + &end_line(accepted, Some(refusal));
        }
        text += &epoch_line(record.height, &state.table());
        accepted += 1;
        stream = &stream[record.bytes.len()..];
    }
    text + &end_line(accepted, (!stream.is_empty()).then_some(Refusal::RecordMalformed))
}

#[test]
fn streams() {
    for name in ["empty", "approved", "r10_fork_vote_twice", "r15_several_differ", "r25_cut_in_votes", "r26_height_again"] {
        let read = |end| std::fs::read(format!("{STREAMS}/{name}.{end}")).expect("a file of a stream");
        assert_eq!(printed(&read("records")).into_bytes(), read("lines"), "{name}");
    }
}
