//! Reads and writes the private state.
//!
//! scenes.rs calls the logging macro `info!` once. That macro is a stand-in, and a macro is expanded
//! where it is called: an `impl` in it belongs to the module of scenes.rs, with its private fields.
//! So the published file is compiled as it is.

#[derive(Clone, Debug, PartialEq, Eq)]
pub struct Entry {
    pub fab: u8,
    pub ep: u16,
    pub group: u16,
    pub scene: u8,
    pub time: u32,
    pub fields: Vec<u8>,
}

#[derive(Clone, Debug, PartialEq, Eq)]
pub struct Record {
    pub fab: u8,
    pub ep: u16,
    pub group: u16,
    pub scene: u8,
    pub valid: bool,
}

#[derive(Clone, Debug, PartialEq, Eq)]
pub struct Dump {
    pub entries: Vec<Entry>,
    pub records: Vec<Record>,
    pub version: u32,
}

pub trait Probe {
    fn dump(&self) -> Dump;
    /// The position of the first entry of a key, from 0.
    fn find_position(&self, fab: u8, ep: u16, group: u16, scene: u8) -> Option<usize>;
    /// The first entry of a key.
    fn find_entry(&self, fab: u8, ep: u16, group: u16, scene: u8) -> Option<Entry>;
    fn counts(&self) -> (usize, usize, u32);
    fn set_version(&self, version: u32);
    fn image(&self) -> Result<Vec<u8>, crate::error::Error>;
    /// Appends as it stands; `false` when full, fabric 0 or fields over `M`.
    fn push_entry(&self, e: &Entry) -> bool;
    fn push_record(&self, r: &Record) -> bool;
}

macro_rules! info {
    ($fmt:literal, $entries:expr) => {{
        let _ = $entries;

        fn probe_entry<const PM: usize>(e: &SceneEntry<PM>) -> $crate::probe::Entry {
            $crate::probe::Entry {
                fab: e.fab_idx.get(),
                ep: e.endpoint_id,
                group: e.group_id,
                scene: e.scene_id,
                time: e.transition_time,
                fields: e.extension_fields.to_vec(),
            }
        }

        impl<const PN: usize, const PM: usize> $crate::probe::Probe for ScenesState<PN, PM> {
            fn dump(&self) -> $crate::probe::Dump {
                self.with(|inner| $crate::probe::Dump {
                    entries: inner.table.iter().map(probe_entry).collect(),
                    records: inner
                        .current_per_fabric
                        .iter()
                        .map(|c| $crate::probe::Record {
                            fab: c.fab_idx.get(),
                            ep: c.endpoint_id,
                            group: c.group_id,
                            scene: c.scene_id,
                            valid: c.valid,
                        })
                        .collect(),
                    version: inner.info_dataver,
                })
            }

            fn find_position(&self, fab: u8, ep: u16, group: u16, scene: u8) -> Option<usize> {
                let key = (fab, ep, group, scene);
                let same = |e: &SceneEntry<PM>| (e.fab_idx.get(), e.endpoint_id, e.group_id, e.scene_id) == key;
                self.with(|inner| inner.table.iter().position(same))
            }

            fn find_entry(&self, fab: u8, ep: u16, group: u16, scene: u8) -> Option<$crate::probe::Entry> {
                let position = self.find_position(fab, ep, group, scene)?;
                Some(self.with(|inner| probe_entry(&inner.table[position])))
            }

            fn counts(&self) -> (usize, usize, u32) {
                self.with(|inner| (inner.table.len(), inner.current_per_fabric.len(), inner.info_dataver))
            }

            fn set_version(&self, version: u32) {
                self.with(|inner| inner.info_dataver = version)
            }

            fn image(&self) -> Result<std::vec::Vec<u8>, Error> {
                self.with(|inner| $crate::persist::image_of(inner))
            }

            fn push_entry(&self, e: &$crate::probe::Entry) -> bool {
                let Some(fab_idx) = NonZeroU8::new(e.fab) else {
                    return false;
                };
                let mut extension_fields = Vec::<u8, PM>::new();
                if extension_fields.extend_from_slice(&e.fields).is_err() {
                    return false;
                }
                self.with(|inner| {
                    inner
                        .table
                        .push(SceneEntry {
                            fab_idx,
                            endpoint_id: e.ep,
                            group_id: e.group,
                            scene_id: e.scene,
                            transition_time: e.time,
                            extension_fields,
                        })
                        .is_ok()
                })
            }

            fn push_record(&self, r: &$crate::probe::Record) -> bool {
                let Some(fab_idx) = NonZeroU8::new(r.fab) else {
                    return false;
                };
                self.with(|inner| {
                    inner
                        .current_per_fabric
                        .push(CurrentScene {
                            fab_idx,
                            endpoint_id: r.ep,
                            group_id: r.group,
                            scene_id: r.scene,
                            valid: r.valid,
                        })
                        .is_ok()
                })
            }
        }
    }};
}
