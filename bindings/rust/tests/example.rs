//! The scope's example through the safe calls.
use ojeonbut::{arcs_from, check, next_arc, outcome, pair, plan_collect, plan_fetch, plan_store, plan_withdraw, query, query_closed, query_ratios, query_via, read_roads, run, variety, version, write_roads};
use ojeonbut::{Direction, Made, Ratios, Reply, Summary, LABEL, NONE, PLAN_RECORD, PLAN_WIDTH, VERSION, WORK};

fn table() -> Vec<u8> {
    let arcs: [[u32; 4]; 5] = [[0, 1, 2, 0], [0, 2, 3, 0], [1, 2, 1, 0], [1, 3, 2, 0], [2, 3, 2, 0]];
    arcs.iter().flatten().flat_map(|v| v.to_le_bytes()).collect()
}

#[test]
fn routes() {
    let table = table();
    let mut labels = vec![85u8; 512 * LABEL + 5];
    let mut area = [7u32; 13];
    let mut summaries = [Summary { length: 7, arcs: 7, labels: 7 }; 5];
    let r = query(&table, 4, 0, 3, 4, (1, 2), &mut labels, &mut area, &mut summaries);
    assert_eq!(r, Reply { outcome: outcome::FEWER, number: 0 });
    assert!(labels.iter().all(|&b| b == 0));
    assert_eq!(area, [0, 3, NONE, 0, 2, 4, 1, 4, NONE, NONE, NONE, NONE, 7]);
    let rows: Vec<_> = summaries.iter().map(|s| (s.length, s.arcs, s.labels)).collect();
    assert_eq!(rows, [(4, 2, 4), (5, 3, 5), (5, 2, 4), (0, 0, 2), (7, 7, 7)]);
}

#[test]
fn refusals_write_nothing() {
    let table = table();
    let mut labels = vec![85u8; LABEL];
    let mut area = [7u32; 12];
    let mut summaries = [Summary { length: 7, arcs: 7, labels: 7 }; 4];
    let r = query(&table, 4, 0, 3, 4, (1, 1), &mut labels, &mut area, &mut summaries);
    assert_eq!(r, Reply { outcome: outcome::THRESHOLD, number: 0 });
    assert!(labels.iter().all(|&b| b == 85) && area.iter().all(|&w| w == 7) && summaries.iter().all(|s| s.length == 7));
}

#[test]
fn closed_roads() {
    let table = table();
    let mut labels = vec![85u8; 512 * LABEL];
    let mut area = [7u32; 6];
    let mut summaries = [Summary { length: 7, arcs: 7, labels: 7 }; 2];
    let wrong = query_closed(&table, 4, 0, 3, 2, (1, 2), &[0; 4], &mut labels, &mut area, &mut summaries);
    assert_eq!(wrong, Reply { outcome: outcome::CLOSURES, number: 0 });
    assert!(labels.iter().all(|&b| b == 85) && area == [7; 6] && summaries.iter().all(|s| s.length == 7));
    let r = query_closed(&table, 4, 0, 3, 2, (1, 2), &[1, 0, 0, 0, 0], &mut labels, &mut area, &mut summaries);
    assert_eq!(r, Reply { outcome: outcome::FEWER, number: 0 });
    assert_eq!(area, [1, 4, NONE, NONE, NONE, NONE]);
    let rows: Vec<_> = summaries.iter().map(|s| (s.length, s.arcs, s.labels)).collect();
    assert_eq!(rows, [(5, 2, 3), (0, 0, 1)]);
    assert_eq!((next_arc(&[1, 0, 1], 0, 3), next_arc(&[1, 0, 1], 2, 3), next_arc(&[], 2, 3), next_arc(&[], 4, 3)), (1, 3, 2, 3));
}

#[test]
fn ratios() {
    let table = table();
    let mut labels = vec![85u8; 512 * LABEL];
    let mut area = [7u32; 12];
    let mut summaries = [Summary { length: 7, arcs: 7, labels: 7 }; 4];
    let seven = Ratios { overlap: 7.0, detour: 7.0 };
    let mut shown = [seven; 5];
    let few = query_ratios(&table, 4, 0, 3, 4, (1, 2), &[0; 5], &mut labels, &mut area, &mut summaries, &mut shown[..3]);
    assert_eq!(few, Reply { outcome: outcome::BUFFERS, number: 0 });
    assert_eq!((labels[0], area, shown), (85, [7; 12], [seven; 5]));
    let r = query_ratios(&table, 4, 0, 3, 4, (1, 2), &[0; 5], &mut labels, &mut area, &mut summaries, &mut shown);
    assert_eq!(r, Reply { outcome: outcome::FEWER, number: 0 });
    let bits: Vec<_> = shown.iter().map(|x| (x.overlap.to_bits(), x.detour.to_bits())).collect();
    let due = [(0.0, 1.0), (0.5, 1.25), (0.4, 1.25), (0.0, 0.0), (7.0, 7.0)].map(|x: (f64, f64)| (x.0.to_bits(), x.1.to_bits()));
    assert_eq!(bits, due);
}

#[test]
fn via_routes() {
    let table = table();
    let mut area = [7u32; 10];
    let mut summaries = [Summary { length: 7, arcs: 7, labels: 7 }; 4];
    let mut work = [85u8; 4 * WORK + 5];
    let wrong = query_via(&table, &table[16..], 4, 0, 3, 3, (1, 2), &[0; 4], &mut area, &mut summaries, &mut work);
    assert_eq!(wrong, Reply { outcome: outcome::SECOND, number: 0 });
    let few = query_via(&table, &table, 4, 0, 3, 3, (1, 2), &[0; 5], &mut area, &mut summaries, &mut work[..4 * WORK - 1]);
    assert_eq!(few, Reply { outcome: outcome::BUFFERS, number: 0 });
    assert!(work.iter().all(|&b| b == 85) && area == [7; 10] && summaries.iter().all(|s| s.length == 7));
    // its arcs stand in order of end node too, so the table is its own second one; the only other candidate is that of node 2
    let r = query_via(&table, &table, 4, 0, 3, 3, (1, 2), &[0; 5], &mut area, &mut summaries, &mut work);
    assert_eq!(r, Reply { outcome: outcome::FEWER, number: 0 });
    assert_eq!(area, [0, 3, NONE, 0, 2, 4, NONE, NONE, NONE, 7]);
    let rows: Vec<_> = summaries.iter().map(|s| (s.length, s.arcs, s.labels)).collect();
    assert_eq!(rows, [(4, 2, 0), (5, 3, 0), (0, 0, 0), (7, 7, 7)]);
    assert!(work.iter().all(|&b| b == 0));
}

#[test]
fn pairs() {
    // the first route, arcs 0, 2 and 4, shares an arc with every other
    let arcs: [[u32; 4]; 5] = [[0, 1, 1, 0], [0, 2, 3, 0], [1, 2, 1, 0], [1, 3, 3, 0], [2, 3, 1, 0]];
    let table: Vec<u8> = arcs.iter().flatten().flat_map(|v| v.to_le_bytes()).collect();
    let mut area = [7u32; 7];
    let mut summaries = [Summary { length: 7, arcs: 7, labels: 7 }; 3];
    let mut work = [85u8; 4 * WORK + 5];
    assert_eq!(pair(&table, 4, 3, 3, &[0; 5], &mut area, &mut summaries, &mut work), reply(outcome::ENDS, 0));
    assert_eq!(pair(&table, 4, 0, 3, &[0; 4], &mut area, &mut summaries, &mut work), reply(outcome::CLOSURES, 0));
    assert_eq!(pair(&table, 4, 0, 3, &[0; 5], &mut area[..5], &mut summaries, &mut work), reply(outcome::BUFFERS, 0));
    assert_eq!(pair(&table, 4, 0, 3, &[0; 5], &mut area, &mut summaries[..1], &mut work), reply(outcome::BUFFERS, 0));
    assert_eq!(pair(&table, 4, 0, 3, &[0; 5], &mut area, &mut summaries, &mut work[..4 * WORK - 1]), reply(outcome::BUFFERS, 0));
    assert!(work.iter().all(|&b| b == 85) && area == [7; 7] && summaries.iter().all(|s| s.length == 7));
    assert_eq!(pair(&table, 4, 0, 3, &[0; 5], &mut area, &mut summaries, &mut work), reply(outcome::FOUND, 0));
    assert_eq!(area, [0, 3, NONE, 1, 4, NONE, 7]);
    assert_eq!(summaries.map(|s| (s.length, s.arcs, s.labels)), [(4, 2, 0), (4, 2, 0), (7, 7, 7)]);
    assert!(work.iter().all(|&b| b == 0));
    work.fill(85);
    assert_eq!(pair(&table, 4, 0, 3, &[0, 0, 0, 1, 0], &mut area, &mut summaries, &mut work), reply(outcome::NO_PAIR, 0));
    assert_eq!(area, [NONE, NONE, NONE, NONE, NONE, NONE, 7]);
    assert_eq!(summaries.map(|s| (s.length, s.arcs, s.labels)), [(0, 0, 0), (0, 0, 0), (7, 7, 7)]);
    assert!(work.iter().all(|&b| b == 0));
}

#[test]
fn most_different() {
    // of lengths 3, 4, 4, 5 and 6; the most dissimilar two are the third and the last, but the best three are the three in the middle
    let arcs: [[u32; 4]; 6] = [[0, 1, 1, 0], [1, 2, 1, 0], [1, 2, 3, 0], [1, 3, 3, 0], [2, 3, 1, 0], [2, 3, 2, 0]];
    let table: Vec<u8> = arcs.iter().flatten().flat_map(|v| v.to_le_bytes()).collect();
    let mut list = [7u32; 17];
    let mut area = [7u32; 10];
    let mut work = [85u8; 4 * WORK + 5];
    assert_eq!(variety(&table, 4, 3, 3, 3, (1, 1), &[0; 6], &mut list, &mut area, &mut work), reply(outcome::ENDS, 0));
    assert_eq!(variety(&table, 4, 0, 3, 13, (1, 1), &[0; 6], &mut list, &mut area, &mut work), reply(outcome::WANTED, 0));
    assert_eq!(variety(&table, 4, 0, 3, 3, (1, 1), &[0; 5], &mut list, &mut area, &mut work), reply(outcome::CLOSURES, 0));
    assert_eq!(variety(&table, 4, 0, 3, 3, (1, 1), &[0; 6], &mut list, &mut area[..8], &mut work), reply(outcome::BUFFERS, 0));
    assert_eq!(variety(&table, 4, 0, 3, 3, (1, 1), &[0; 6], &mut list, &mut area, &mut work[..4 * WORK - 1]), reply(outcome::BUFFERS, 0));
    assert_eq!(variety(&table, 4, 0, 3, 3, (2, 1), &[0; 6], &mut list, &mut area, &mut work), reply(outcome::RANGE, 0));
    assert_eq!(variety(&table, 4, 0, 3, 3, (0, 1001), &[0; 6], &mut list, &mut area, &mut work), reply(outcome::RANGE, 0));
    assert!(work.iter().all(|&b| b == 85) && area == [7; 10] && list == [7; 17]);
    assert_eq!(variety(&table, 4, 0, 3, 3, (1, 1), &[0; 6], &mut list, &mut area, &mut work), reply(outcome::FOUND, 5));
    assert_eq!(list, [0, 1, 4, 0, 1, 5, 0, 3, NONE, 0, 2, 4, 0, 2, 5, 7, 7]);
    assert_eq!(area, [0, 1, 5, 0, 3, NONE, 0, 2, 4, 7]);
    assert!(work.iter().all(|&b| b == 0));
    work.fill(85);
    assert_eq!(variety(&table, 4, 0, 3, 2, (1, 1), &[0; 6], &mut list[..14], &mut area, &mut work), reply(outcome::LIST_FULL, 0));
    assert_eq!((&list[..14], &list[14..]), (&[NONE; 14][..], &[5, 7, 7][..]));
    assert_eq!(area, [NONE, NONE, NONE, NONE, NONE, NONE, 0, 2, 4, 7]);
    assert!(work.iter().all(|&b| b == 0));
    work.fill(85);
    assert_eq!(variety(&table, 4, 0, 3, 3, (0, 1), &[0; 6], &mut list, &mut area, &mut work), reply(outcome::TOO_FEW, 0));
    assert_eq!((list, area), ([NONE; 17], [NONE, NONE, NONE, NONE, NONE, NONE, NONE, NONE, NONE, 7]));
    assert!(work.iter().all(|&b| b == 0));
}

#[test]
fn runs_of_either_table() {
    let arcs: [[u32; 4]; 4] = [[0, 2, 1, 0], [1, 0, 1, 0], [1, 2, 1, 0], [2, 1, 1, 0]];
    let bytes = |order: [usize; 4]| -> Vec<u8> { order.iter().flat_map(|&a| arcs[a]).flat_map(|v| v.to_le_bytes()).collect() };
    let (table, second) = (bytes([0, 1, 2, 3]), bytes([1, 3, 0, 2]));
    assert_eq!(run(&table, &second, 3, Direction::Leaving, 1), &table[16..48]);
    assert_eq!(run(&table, &second, 3, Direction::Coming, 2), &second[32..64]);
    assert!(run(&table, &second, 3, Direction::Coming, 3).is_empty() && run(&table, &second, 2, Direction::Coming, 1).is_empty());
    assert!(run(&table, &bytes([1, 3, 2, 0]), 3, Direction::Coming, 2).is_empty() && run(&table, &table, 3, Direction::Leaving, 1).is_empty());
}

#[test]
fn table_calls() {
    let table = table();
    assert_eq!(check(&table, 4), Reply { outcome: outcome::FOUND, number: 0 });
    assert_eq!(check(&table, 3), Reply { outcome: outcome::NODE, number: 3 });
    assert_eq!(arcs_from(&table, 4, 1), &table[32..64]);
    assert!(arcs_from(&table, 4, 3).is_empty() && arcs_from(&table, 3, 1).is_empty());
    assert_eq!(check(&[], 0), Reply { outcome: outcome::SIZE, number: 0 });
}

#[test]
fn road_files() {
    let text = b"c shuffled\np sp 4 5\na 2 3 1\na 1 2 2\na 3 4 2\na 1 3 3\nc\na 2 4 2\n";
    let mut area = [85u8; 96];
    assert_eq!(read_roads(text, &mut area), Made { outcome: outcome::FOUND, number: 0, bytes: 80, nodes: 4 });
    assert_eq!(area[..80], table()[..]);
    assert!(area[80..].iter().all(|&b| b == 85));
    let mut written = [85u8; 64];
    let due = b"p sp 4 5\na 1 2 2\na 1 3 3\na 2 3 1\na 2 4 2\na 3 4 2\n";
    assert_eq!(write_roads(&table(), 4, &mut written), Made { outcome: outcome::FOUND, number: 0, bytes: due.len(), nodes: 0 });
    assert_eq!(written[..due.len()], due[..]);
    assert!(written[due.len()..].iter().all(|&b| b == 85));
    let mut few = [85u8; 79];
    assert_eq!(read_roads(text, &mut few), Made { outcome: outcome::BUFFERS, number: 0, bytes: 0, nodes: 0 });
    assert_eq!(read_roads(b"p sp 2 1\na 0 1 1\n", &mut few), Made { outcome: outcome::FILE, number: 2, bytes: 0, nodes: 0 });
    assert_eq!(write_roads(&table(), 3, &mut few), Made { outcome: outcome::NODE, number: 3, bytes: 0, nodes: 0 });
    assert!(few.iter().all(|&b| b == 85));
}

fn reply(outcome: u32, number: u32) -> Reply {
    Reply { outcome, number }
}

/// A record as document 02's item 6 lays it out.
fn plan_record(plan: u32, rank: u8, part: u16, arcs: &[u32]) -> Vec<u8> {
    let mut bytes = plan.to_le_bytes().to_vec();
    bytes.extend([rank, arcs.len() as u8]);
    bytes.extend(part.to_le_bytes());
    bytes.extend((0..6).flat_map(|j| arcs.get(j).copied().unwrap_or(NONE).to_le_bytes()));
    bytes
}

#[test]
fn plans() {
    let mut file = [0u8; 5 * PLAN_RECORD];
    let mut area = [7u32; 17];
    let slots = [0, 3, NONE, NONE, NONE, NONE, NONE, NONE, 0, 1, 2, 3, 4, 5, 6, 262143];
    assert_eq!(plan_store(&mut file, 9, &[5], 1, 1), reply(outcome::FOUND, 0));
    assert_eq!(plan_store(&mut file, u32::MAX, &slots, 2, 8), reply(outcome::FOUND, 0));
    let due = [plan_record(9, 0, 0, &[5]), plan_record(u32::MAX, 0, 0, &[0, 3]), plan_record(u32::MAX, 1, 0, &[0, 1, 2, 3, 4, 5]), plan_record(u32::MAX, 1, 1, &[6, 262143]), vec![0; 32]];
    assert_eq!(file[..], due.concat()[..]);
    assert_eq!(plan_store(&mut file, 9, &[5], 1, 1), reply(outcome::PLAN_THERE, 0));
    assert_eq!(plan_store(&mut file, 8, &[5, 6], 2, 1), reply(outcome::PLAN_ROOM, 0));
    assert_eq!(plan_store(&mut file, 8, &[5, 6], 1, 1), reply(outcome::PLAN_REQUEST, 0));
    assert_eq!(plan_store(&mut file, 8, &vec![5; PLAN_WIDTH as usize + 1], 1, PLAN_WIDTH + 1), reply(outcome::PLAN_REQUEST, 0));
    assert_eq!(plan_fetch(&file, u32::MAX, &mut area, 7), reply(outcome::BUFFERS, 0));
    assert_eq!(plan_fetch(&file, u32::MAX, &mut area[..15], 8), reply(outcome::BUFFERS, 0));
    assert_eq!((area, &file[..]), ([7; 17], &due.concat()[..]));
    assert_eq!(plan_fetch(&file, u32::MAX, &mut area, 8), reply(outcome::FOUND, 2));
    assert_eq!((&area[..16], area[16]), (&slots[..], 7));
    assert_eq!(plan_withdraw(&mut file, 9), reply(outcome::FOUND, 0));
    assert_eq!(plan_withdraw(&mut file, 9), reply(outcome::PLAN_THERE, 0));
    assert_eq!(file[..PLAN_RECORD], [0; PLAN_RECORD]);
    assert_eq!(plan_collect(&mut file), reply(outcome::FOUND, 0));
    assert_eq!(file[..], [due[1..].concat(), vec![0; 32]].concat()[..]);
    assert_eq!(plan_collect(&mut file[..33]), reply(outcome::PLAN_FILE, 0));
}

#[test]
fn versions_agree() {
    assert_eq!(version(), VERSION);
}
