//! The first driver: every call. An add takes the pairs that a host listed, so that neither side reads its field bytes.
use crate::dm::clusters::scenes::Sets;
use crate::ffi::{tested, unchecked, LentMut, Outcome, State};
use crate::ours::YES;
use crate::requests::SceneKey;
use crate::rows::{entry, Plan, Row, Side, FIELDS, TIME};

pub const TITLE: &str = "Ours and the published Rust";

pub const ABOUT: &str = "
Each cell has the cost of our tested call, of our owner's call and of the Rust's, and the ratios of the first two to the last: below 1 ours is
faster. A number in brackets behind a row's name is a refusal, which all answer. A time is the mean of 4,025 single calls, of a save or a load of
125, without the shortest and the longest twentieth, less that of a call that does nothing, in the least disturbed of 15 passes; the sides take
turns. The table is in the cache.

Tested: the call as a host makes it through the static library, with the test that the whole table is sound. Owner's: the same without the test,
for a table that its owner alone writes. A recall is two calls; a view hands over position and length of the fields, which are then copied. The
Rust: the handler of the published scenes.rs, compiled with the driver, without a soundness test. No side has TLV but in a save and a load, and
for the walk of a recalled scene's fields, which ends at once here. An add in share mode is ours; the Rust, which has no such mode, adds as
ever. Left out of the other calls on all sides: saving (the Rust's storage writes nothing), the host's answers (always yes), applying.

A save writes the image into a buffer of 171 N + 8 bytes, a load takes it from there into a table that holds the same. The Rust's are the
handler's own save and startup over a storage that is such a buffer.

A table has four fabrics with four groups each on one endpoint, a current scene for each fabric, and 16 field bytes in each scene. On an
empty table an overwrite, a store and the views find nothing.";

/// What an add takes: always the same two pairs and the same field bytes.
pub struct Fields;

pub const FILL: Fields = Fields;

pub type FieldSets<'a> = Sets<'a>;

pub fn sets(_: Fields) -> FieldSets<'static> {
    Sets { fields: &FIELDS, pairs: 2 }
}

pub fn add<const TESTED: bool>(state: State, lent: LentMut<'_>, key: SceneKey, _: Fields) -> Outcome {
    if TESTED {
        return tested::add(state, lent, key, TIME, YES, &[YES, YES], &FIELDS);
    }
    // SAFETY: the table begins empty, and only calls write it.
    unsafe { unchecked::add(state, lent, key, TIME, YES, &[YES, YES], &FIELDS) }
}

pub fn rows<S: Side>() -> Vec<Row<S>> {
    let row = |name, writes, call| Row { name, writes, image: false, call };
    let image = |name, writes, call| Row { name, writes, image: true, call };
    vec![
        row("add, new", true, |s: &mut S, p: Plan| s.add(p.absent(), Fields)),
        row("add, new, share mode", true, |s, p| s.add_shared(p.absent(), Fields)),
        row("add, overwrite", true, |s, p| s.add(p.middle(), Fields)),
        row("store, new", true, |s, p| s.store(p.absent())),
        row("store, first", true, |s, _| s.store(entry(0))),
        row("store, middle", true, |s, p| s.store(p.middle())),
        row("store, last", true, |s, p| s.store(p.last())),
        row("view, first", false, |s, _| s.view(entry(0))),
        row("view, middle", false, |s, p| s.view(p.middle())),
        row("view, last", false, |s, p| s.view(p.last())),
        row("view, none", false, |s, p| s.view(p.absent())),
        row("view, middle, fields copied", false, |s, p| s.view_fields(p.middle())),
        row("remove", true, |s, p| s.remove(p.middle())),
        row("remove all", true, |s, p| s.remove_all(p.group())),
        row("copy, one", true, |s, p| s.copy(p.copied(0))),
        row("copy, group", true, |s, p| s.copy(p.copied(1))),
        row("recall", true, |s, p| s.recall(p.middle())),
        row("membership", false, |s, p| s.membership(p.group())),
        row("info", false, |s, p| s.info(p.group())),
        row("notice", true, |s, _| s.notice(1)),
        row("fabric removal", true, |s, p| s.remove_fabric(p.middle().fabric)),
        image("save", false, |s, _| s.save()),
        image("load", true, |s, _| s.load()),
    ]
}
