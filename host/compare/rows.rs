//! What is measured: the tables and how a call is described, the same for both sides.
use crate::driver::{Fields, FILL};
use crate::requests::{CopyRequest, GroupKey, GroupScene, SceneKey};

pub const TIME: u32 = 1000;

/// The field bytes of every scene: 16, of which the first ends the list that a recall walks, so that nothing is applied.
pub const FIELDS: [u8; 16] = [0x18, 1, 2, 3, 4, 5, 6, 7, 8, 9, 10, 11, 12, 13, 14, 0x18];

/// As many field bytes as a scene may have.
const LONG: [u8; 128] = [0x18; 128];

/// No image of a table of so many places has more bytes.
pub const fn image_max(places: usize) -> usize {
    171 * places + 8
}

/// A table, ours or the published one. A call answers its status.
pub trait Side {
    fn add(&mut self, key: SceneKey, fields: Fields) -> u8;
    /// An add to a table in share mode, which the published one does not have.
    fn add_shared(&mut self, key: SceneKey, fields: Fields) -> u8 {
        self.add(key, fields)
    }
    fn store(&mut self, key: SceneKey) -> u8;
    fn view(&mut self, key: SceneKey) -> u8;
    /// A view, with the field bytes copied to a buffer.
    fn view_fields(&mut self, key: SceneKey) -> u8;
    fn remove(&mut self, key: SceneKey) -> u8;
    fn remove_all(&mut self, key: GroupKey) -> u8;
    fn copy(&mut self, request: CopyRequest) -> u8;
    fn recall(&mut self, key: SceneKey) -> u8;
    fn membership(&mut self, key: GroupKey) -> u8;
    fn info(&mut self, key: GroupKey) -> u8;
    fn notice(&mut self, endpoint: u16) -> u8;
    fn remove_fabric(&mut self, fabric: u8) -> u8;
    /// Writes the image of the table into a buffer, from which a load takes it.
    fn save(&mut self) -> u8;
    fn load(&mut self) -> u8;
    /// What was saved last, and an image in its place.
    fn image(&self) -> Vec<u8>;
    fn put_image(&mut self, image: &[u8]);
    /// Remembers the table as it stands, and makes it so again.
    fn keep(&mut self);
    fn restore(&mut self);
}

/// Entry i of every table: four fabrics, and of each four groups on endpoint 1.
pub fn entry(i: usize) -> SceneKey {
    SceneKey { fabric: 1 + (i % 4) as u8, endpoint: 1, group: 1 + (i / 4 % 4) as u16, scene: 1 + (i / 16) as u8 }
}

/// The image of so many entries with the most field bytes, and of no records: structures (0x15) in an array (0x36), each of numbers of a byte
/// (0x24) or two (0x25) and an octet string (0x30), and 0x18 behind each container.
fn long_image(entries: usize) -> Vec<u8> {
    let mut image = vec![0x15, 0x36, 0];
    for i in 0..entries {
        let SceneKey { fabric, endpoint, group, scene } = entry(i);
        image.extend([0x15, 0x24, 0, fabric, 0x24, 1, endpoint as u8]);
        image.extend([0x24, 2, group as u8, 0x24, 3, scene, 0x25, 4]);
        image.extend((TIME as u16).to_le_bytes());
        image.extend([0x30, 5, LONG.len() as u8]);
        image.extend(LONG);
        image.push(0x18);
    }
    image.extend([0x18, 0x36, 1, 0x18, 0x18]);
    image
}

/// A table of so many entries, with the last scene of each fabric as its current one, and its image. Long scenes are loaded, since the
/// compiler makes one `add` of the Rust's slower where there is another.
pub fn fill(side: &mut impl Side, entries: usize, long: bool) {
    if long {
        side.put_image(&long_image(entries));
        assert_eq!(side.load(), 0);
    } else {
        (0..entries).for_each(|i| assert_eq!(side.add(entry(i), FILL), 0));
    }
    for i in entries.saturating_sub(4)..entries {
        assert_eq!(side.store(entry(i)), 0);
    }
    assert_eq!(side.save(), 0);
    side.keep();
}

/// The entries that the calls name.
#[derive(Clone, Copy)]
pub struct Plan {
    pub entries: usize,
}

impl Plan {
    pub fn middle(self) -> SceneKey {
        entry(self.entries / 2)
    }
    pub fn last(self) -> SceneKey {
        entry(self.entries.saturating_sub(1))
    }
    pub fn group(self) -> GroupKey {
        let SceneKey { fabric, endpoint, group, .. } = self.middle();
        GroupKey { fabric, endpoint, group }
    }
    /// No table has it.
    pub fn absent(self) -> SceneKey {
        SceneKey { group: 9, ..self.middle() }
    }
    pub fn copied(self, mode: u8) -> CopyRequest {
        let SceneKey { fabric, endpoint, group, scene } = self.middle();
        CopyRequest { fabric, endpoint, mode, from: GroupScene { group, scene }, to: GroupScene { group: 9, scene } }
    }
}

pub struct Row<S> {
    pub name: &'static str,
    pub call: fn(&mut S, Plan) -> u8,
    /// Whether the table has to be made anew after it.
    pub writes: bool,
    /// Whether it saves or loads: its cost then depends on how long the fields are.
    pub image: bool,
}
