//! Where orders go by a list, and which of its lines say so.
use crate::list::Line;
use crate::list_file::ListFile;
use crate::tables::Tables;
use crate::tree_words::Words;
use crate::trouble::{Status, Trouble};
use router::{resolve_single_home, table_words, Refusal, Resolution, Snapshot, Table, WholeMove};
use std::ffi::OsStr;
use std::io::Write;

/// What becomes of an order.
pub struct Order<'d, 'f> {
    pub resolution: Resolution,
    /// The most places of the table that the walk stood at.
    pub peak: usize,
    words: Words<'d>,
    places: &'d [u32],
    lines: &'d [Line<'f>],
}

impl<'d, 'f> Order<'d, 'f> {
    /// The lines that match, in the router's order.
    pub fn lines(&self) -> impl Iterator<Item = &'d Line<'f>> + '_ {
        let lines = self.lines;
        self.places
            .iter()
            .filter_map(move |&place| lines.get(place as usize))
    }

    /// How far lines go along with the subject: the first tokens of one that goes furthest.
    pub fn furthest(&self, subject: &[u8]) -> Vec<u8> {
        let stars = self.words.furthest(subject);
        let tokens = router::tokens(subject).zip(stars);
        let tokens = tokens.map(|(token, star)| if star { &b"*"[..] } else { token });
        tokens.collect::<Vec<_>>().join(&b'.')
    }

    /// How many lines match.
    pub fn matched(&self) -> usize {
        self.places.len()
    }
}

/// The table of a list as it stands, with room for what it answers.
pub struct Desk<'d, 'f> {
    lines: &'d [Line<'f>],
    snapshot: Snapshot<'d>,
    places: Table<'d>,
    target_room: Vec<u32>,
    place_room: Vec<u32>,
}

/// The words of the area in which the table of a list stands.
fn area_for(tables: &Tables) -> Vec<u32> {
    vec![0; table_words(tables.targets.nodes, tables.targets.targets)]
}

impl<'d, 'f> Desk<'d, 'f> {
    /// The table of targets stands in a lent area.
    fn new(
        lines: &'d [Line<'f>],
        tables: &'d Tables,
        area: &'d mut [u32],
    ) -> Result<Desk<'d, 'f>, Refusal> {
        Ok(Desk {
            lines,
            snapshot: Snapshot::new(&tables.targets.lent(), area)?,
            places: tables.places.lent(),
            target_room: vec![0; lines.len()],
            place_room: vec![0; lines.len()],
        })
    }

    /// Where an order goes, by the router's verdict on the table of targets.
    pub fn order(&mut self, subject: &[u8]) -> Result<Order<'_, 'f>, Refusal> {
        let verdict = resolve_single_home(&self.snapshot, subject, &mut self.target_room)?;
        self.explained(subject, verdict.resolution)
    }

    /// Where the orders of a whole move go, by the router's answer on the table of targets.
    pub fn whole_move<'o>(
        &self,
        bytes: &[u8],
        spans: &[[usize; 2]],
        out: &'o mut [u32],
    ) -> Result<WholeMove<'o>, Refusal> {
        router::whole_move(&self.snapshot, bytes, spans, out)
    }

    /// A verdict on a subject with the lines that match it. They come from the table of places, which has the same nodes.
    pub fn explained(
        &mut self,
        subject: &[u8],
        resolution: Resolution,
    ) -> Result<Order<'_, 'f>, Refusal> {
        let found = self.places.match_into(subject, &mut self.place_room)?;
        Ok(Order {
            resolution,
            peak: found.peak,
            words: Words::new(self.places),
            places: found.list,
            lines: self.lines,
        })
    }
}

/// Does the work of a command at the desk of a list, or says why the list is refused.
pub fn at_desk<W: Write>(
    list: &OsStr,
    json: bool,
    out: &mut W,
    work: impl FnOnce(Desk<'_, '_>, &mut W) -> Result<Status, Trouble>,
) -> Result<Status, Trouble> {
    let file = ListFile::read(list)?;
    let loaded = file.load();
    let Some(tables) = &loaded.tables else {
        loaded.tell_refusal(&file.name, json, out)?;
        return Ok(Status::Refused);
    };
    let mut area = area_for(tables);
    let desk = Desk::new(&loaded.lines, tables, &mut area).map_err(|e| Trouble::File {
        name: file.name.clone(),
        reason: e.to_string(),
    })?;
    work(desk, out)
}
