//! Areas of bytes through the library.
mod common;

use common::{Owned, ROW};
use router::bytes::{ResolveCacheBytes, SnapshotBytes, TableBytes};
use router::{Refusal, Snapshot};

fn bytes_of(words: &[u32]) -> Vec<u8> {
    words.iter().flat_map(|word| word.to_le_bytes()).collect()
}

#[test]
fn areas_of_bytes() {
    let row = Owned::of(&ROW);
    let (table, mut words) = (row.table(), [0; 100]);
    let snapshot = Snapshot::new(&table, &mut words).expect("it fits");
    let (state, words) = snapshot.parts();
    let area = bytes_of(words);
    let snapshot = SnapshotBytes { state, area: &area };
    let (mut stamps, mut keys, mut kept) = ([0; 16], [0; 520], [0; 128]);
    let mut cache = ResolveCacheBytes::with_capacity(2, &mut stamps, &mut keys, &mut kept);
    for hit in [false, true] {
        let mut out = [0; 20];
        let (targets, found) = cache
            .resolve(&snapshot, b"a.b", &mut out)
            .expect("accepted");
        assert!(targets.iter().eq([2, 4, 1, 5, 3]) && targets.len() == 5);
        assert_eq!(found, hit);
    }
    assert_eq!((cache.state.walks, cache.state.used), (1, 1));
    cache.clear();
    assert_eq!(cache.state.used, 0);
    let full = cache.resolve(&snapshot, b"a.b", &mut [0; 65536]).err();
    assert_eq!(full, Some(Refusal::CopyFull));
    let table = TableBytes {
        nodes: table.nodes,
        targets: table.targets,
        node_bytes: &bytes_of(table.node_words),
        target_bytes: &bytes_of(table.target_words),
    };
    let mut out = [0; 20];
    let found = table
        .match_into(b"a.b", &mut out)
        .map(|(targets, peak)| (targets.len(), peak));
    assert_eq!(found, Ok((5, 2)));
}
