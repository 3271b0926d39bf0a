//! One table: each call goes to the handler of scenes.rs, and what comes back becomes an answer.
use std::cell::{Cell, RefCell};
use std::collections::HashSet;
use std::future::Future;
use std::num::NonZeroU8;
use std::pin::pin;
use std::task::{Context, Poll, Waker};

use crate::dm::clusters::scenes::*;
use crate::dm::{ArrayAttributeRead, Dataver, LifecycleOp};
use crate::error::{Error, ErrorCode};
use crate::hosts::{Clusters, Ctx, Groups};
use crate::persist::Kv;
use crate::probe::{Dump, Entry, Probe};
use crate::script::{Add, Address, Call, Copy, Override, Recall};
use crate::search;
use crate::share;
use crate::sink::{self, Sink};
use crate::tlv::{TLVBuilder, TLVElement, TLVTag, TLVWrite, TLVWriteParent};

#[derive(Default)]
pub struct Answer {
    pub status: String,
    pub save: bool,
    pub values: Vec<String>,
    pub marks: Vec<String>,
    /// The lines of a dump, in place of an answer line.
    pub lines: Vec<String>,
}

/// A table of any size.
pub trait AnyTable {
    fn counts(&self) -> (usize, usize, u32);
    fn run(&self, call: &Call) -> Answer;
}

struct Table<const N: usize> {
    state: ScenesState<N>,
    kv: Kv,
    notified: Cell<u32>,
    saved: RefCell<Vec<u8>>,
    /// Whether the table is in share mode.
    shared: bool,
}

/// What a handler left: its result, what the response was told, the bytes written, and whether a
/// membership answer was no.
struct Handled {
    result: Result<(), Error>,
    told: Vec<(&'static str, Option<u64>)>,
    wire: Vec<u8>,
    said_no: bool,
}

impl Handled {
    fn value(&self, name: &str) -> Option<u64> {
        self.told.iter().find(|(told, _)| *told == name).and_then(|(_, value)| *value)
    }

    fn error(&self) -> Option<ErrorCode> {
        self.result.as_ref().err().map(|e| e.code())
    }

    /// The status of a command that has a response.
    fn answer(&self) -> Answer {
        let status = match self.error() {
            None => format!("{:02X}", self.value("status").expect("a status")),
            Some(code) => host_fault(code),
        };
        Answer { status, ..Answer::default() }
    }
}

fn host_fault(code: ErrorCode) -> String {
    match code {
        ErrorCode::UnsupportedAccess => "F1".into(),
        ErrorCode::HostMembership => "F2".into(),
        other => format!("ERR:{other:?}"),
    }
}

fn with_status(status: &str) -> Answer {
    Answer { status: status.into(), ..Answer::default() }
}

/// Nothing here ever waits.
fn at_once<F: Future>(future: F) -> F::Output {
    match pin!(future).poll(&mut Context::from_waker(Waker::noop())) {
        Poll::Ready(result) => result,
        Poll::Pending => unreachable!(),
    }
}

pub fn hex(bytes: &[u8]) -> String {
    const DIGITS: &[u8; 16] = b"0123456789ABCDEF";
    if bytes.is_empty() {
        return "-".into();
    }
    let mut text = String::with_capacity(2 * bytes.len());
    for b in bytes {
        text.push(DIGITS[(b >> 4) as usize] as char);
        text.push(DIGITS[(b & 15) as usize] as char);
    }
    text
}

fn joined(words: Vec<String>) -> String {
    if words.is_empty() {
        return "-".into();
    }
    words.join(",")
}

/// A request structure whose members the closure writes.
fn request(members: impl FnOnce(&mut Sink) -> Result<(), Error>) -> Vec<u8> {
    let mut sink = Sink::default();
    sink.start_struct(&TLVTag::Anonymous).unwrap();
    members(&mut sink).unwrap();
    sink.end_container().unwrap();
    sink.0
}

fn group_request(group: u16) -> Vec<u8> {
    request(|s| s.u16(&TLVTag::Context(0), group))
}

fn scene_request(at: &Address) -> Vec<u8> {
    request(|s| {
        s.u16(&TLVTag::Context(0), at.group)?;
        s.u8(&TLVTag::Context(1), at.scene)
    })
}

type Parent<'a> = TLVWriteParent<&'static str, &'a mut Sink>;

/// Calls one of the handlers that answer by a response.
macro_rules! respond {
    ($method:ident, $builder:ident, $request:expr) => {
        |handler, ctx, parent| {
            let response = $builder::new(parent, &TLVTag::Anonymous)?;
            at_once(handler.$method(ctx, $request, response)).map(|_| ())
        }
    };
}

impl<const N: usize> Table<N> {
    fn ctx(&self, fab: u8, ep: u16) -> Ctx<'_> {
        Ctx::new(&self.kv, &self.notified, fab, ep)
    }

    fn handle(
        &self,
        (fab, ep): (u8, u16),
        members: &[(u16, u8)],
        clusters: &Clusters,
        call: impl FnOnce(&ScenesHandler<'_, N, &Clusters>, Ctx<'_>, Parent<'_>) -> Result<(), Error>,
    ) -> Handled {
        let groups = Groups::new(fab, ep, members);
        let handler = ScenesHandler::new(Dataver::new(0), &groups, &self.state, clusters);
        let mut wire = Sink::default();
        sink::take();
        let result = call(&handler, self.ctx(fab, ep), TLVWriteParent::new("response", &mut wire));
        Handled { result, told: sink::take(), wire: wire.0, said_no: groups.said_no.get() }
    }

    /// A command on one scene or group, with its one membership answer.
    fn command(
        &self,
        at: &Address,
        member: u8,
        clusters: &Clusters,
        call: impl FnOnce(&ScenesHandler<'_, N, &Clusters>, Ctx<'_>, Parent<'_>) -> Result<(), Error>,
    ) -> Handled {
        self.handle((at.fab, at.ep), &[(at.group, member)], clusters, call)
    }

    fn add(&self, add: &Add) -> Answer {
        let sets = add.walked && !add.fields.is_empty();
        let bytes = request(|s| {
            s.u16(&TLVTag::Context(0), add.at.group)?;
            s.u8(&TLVTag::Context(1), add.at.scene)?;
            s.u32(&TLVTag::Context(2), add.time)?;
            s.utf8(&TLVTag::Context(3), "")?;
            if sets {
                // The fields end with the 0x18 of this array.
                s.start_array(&TLVTag::Context(4))?;
                s.write_raw_data(add.fields.iter().copied())?;
            }
            Ok(())
        });
        let element = TLVElement::new(&bytes);
        let request = if add.walked || (add.fields.is_empty() && add.pairs.is_empty()) {
            AddSceneRequest::new(element)
        } else {
            AddSceneRequest::given(element, Given { raw: &add.fields, pairs: add.pairs.len() })
        };
        let clusters = Clusters { pairs: add.pairs.clone(), ..Clusters::default() };
        let marks = if sets { walk_marks(&request, &add.fields) } else { Vec::new() };
        let handled =
            self.command(&add.at, add.member, &clusters, respond!(handle_add_scene, AddSceneResponseBuilder, request));
        let mut answer = Answer { marks, ..handled.answer() };
        if clusters.above_2.get() {
            answer.status = "F7".into();
        }
        if add.walked {
            answer.marks.push(asked_mark(&clusters));
        }
        answer
    }

    fn store(&self, at: &Address, member: u8, captured: &[u8]) -> Answer {
        let bytes = scene_request(at);
        let request = StoreSceneRequest::new(TLVElement::new(&bytes));
        let clusters = Clusters { captured: captured.to_vec(), ..Clusters::default() };
        let handled =
            self.command(at, member, &clusters, respond!(handle_store_scene, StoreSceneResponseBuilder, request));
        match handled.error() {
            Some(ErrorCode::NoSpace) => with_status("F3"),
            _ => handled.answer(),
        }
    }

    fn view(&self, at: &Address, member: u8) -> Answer {
        let bytes = scene_request(at);
        let request = ViewSceneRequest::new(TLVElement::new(&bytes));
        let none = Clusters::default();
        let handled = self.command(at, member, &none, respond!(handle_view_scene, ViewSceneResponseBuilder, request));
        let mut answer = handled.answer();
        let time = handled.value("transition_time");
        if answer.status != "00" {
            assert!(time.is_none());
            return answer;
        }
        let (from, to) = (handled.value("efs_at").unwrap(), handled.value("end_at").unwrap());
        let mut fields = &handled.wire[from as usize..to as usize];
        if !fields.is_empty() {
            // the start of an array under context tag 5
            assert_eq!(fields[..2], [0x36, 0x05]);
            fields = &fields[2..];
        }
        answer.values = vec![time.unwrap().to_string(), hex(fields)];
        answer
    }

    fn remove(&self, at: &Address, member: u8) -> Answer {
        let bytes = scene_request(at);
        let request = RemoveSceneRequest::new(TLVElement::new(&bytes));
        let none = Clusters::default();
        self.command(at, member, &none, respond!(handle_remove_scene, RemoveSceneResponseBuilder, request)).answer()
    }

    fn remove_all(&self, at: &Address, member: u8) -> Answer {
        let bytes = group_request(at.group);
        let request = RemoveAllScenesRequest::new(TLVElement::new(&bytes));
        let none = Clusters::default();
        self.command(at, member, &none, respond!(handle_remove_all_scenes, RemoveAllScenesResponseBuilder, request))
            .answer()
    }

    fn copy(&self, copy: &Copy) -> Answer {
        let bytes = request(|s| {
            s.u8(&TLVTag::Context(0), copy.mode)?;
            s.u16(&TLVTag::Context(1), copy.from.0)?;
            s.u8(&TLVTag::Context(2), copy.from.1)?;
            s.u16(&TLVTag::Context(3), copy.to.0)?;
            s.u8(&TLVTag::Context(4), copy.to.1)
        });
        let request = CopySceneRequest::new(TLVElement::new(&bytes));
        let members = [(copy.from.0, copy.members.0), (copy.to.0, copy.members.1)];
        let none = Clusters::default();
        let from = (copy.fab, copy.ep);
        self.handle(from, &members, &none, respond!(handle_copy_scene, CopySceneResponseBuilder, request)).answer()
    }

    fn recall(&self, recall: &Recall) -> Answer {
        let at = &recall.at;
        let bytes = request(|s| {
            s.u16(&TLVTag::Context(0), at.group)?;
            s.u8(&TLVTag::Context(1), at.scene)?;
            match recall.time {
                Override::Absent => Ok(()),
                Override::Null => s.null(&TLVTag::Context(2)),
                Override::Time(time) => s.u32(&TLVTag::Context(2), time),
            }
        });
        let request = RecallSceneRequest::new(TLVElement::new(&bytes));
        let found = self.state.find_entry(at.fab, at.ep, at.group, at.scene);
        let clusters = Clusters { applied: recall.applied, ..Clusters::default() };
        let handled = self.command(at, recall.member, &clusters, |handler, ctx, _| {
            at_once(handler.handle_recall_scene(ctx, request))
        });
        let mut answer = with_status(&recall_status(&handled, at, found.is_some()));
        if answer.status == "00" || answer.status == "F4" {
            answer.values = recall_values(&clusters, at, found.unwrap());
        }
        if answer.status == "00" && !recall.applied && clusters.applies.borrow().is_empty() {
            answer.marks.push("NOSET".into());
        }
        if answer.status == "F4" && handled.error() != Some(ErrorCode::HostApply) {
            answer.marks.push("UNREADABLE".into());
        }
        answer
    }

    fn membership(&self, at: &Address, member: u8) -> Answer {
        let bytes = group_request(at.group);
        let request = GetSceneMembershipRequest::new(TLVElement::new(&bytes));
        let none = Clusters::default();
        let handled = self.command(
            at,
            member,
            &none,
            respond!(handle_get_scene_membership, GetSceneMembershipResponseBuilder, request),
        );
        let mut answer = handled.answer();
        let capacity = handled.value("capacity");
        if answer.status != "00" {
            assert!(capacity.is_none() || handled.error().is_some());
            return answer;
        }
        let list = TLVElement::new(&handled.wire[handled.value("list_at").unwrap() as usize..]);
        let ids = list.array().unwrap();
        let ids = ids.iter().map(|id| id.unwrap().u8().unwrap().to_string()).collect();
        answer.values = vec![capacity.unwrap().to_string(), joined(ids)];
        answer
    }

    fn info(&self, fab: u8, ep: u16, kind: u8) -> Answer {
        let handled = self.handle((fab, ep), &[], &Clusters::default(), |handler, ctx, parent| {
            let tag = TLVTag::Anonymous;
            let read = match kind {
                0 => ArrayAttributeRead::ReadAll(SceneInfoStructArrayBuilder::new(parent, &tag)?),
                1 => ArrayAttributeRead::ReadOne(0, SceneInfoStructBuilder::new(parent, &tag)?),
                _ => ArrayAttributeRead::ReadNone(SceneInfoStructArrayBuilder::new(parent, &tag)?),
            };
            at_once(handler.fabric_scene_info(ctx, read)).map(|_| ())
        });
        match handled.error() {
            None => Answer { values: info_values(&handled), ..with_status("00") },
            Some(ErrorCode::AttributeNotFound) => with_status("F5"),
            Some(code) => with_status(&host_fault(code)),
        }
    }

    fn lifecycle(&self, op: LifecycleOp) -> Answer {
        let groups = Groups::new(0, 0, &[]);
        let clusters = Clusters::default();
        let handler = ScenesHandler::new(Dataver::new(0), &groups, &self.state, &clusters);
        match handler.lifecycle(self.ctx(0, 0), op) {
            Ok(()) => with_status("00"),
            Err(e) => with_status(&host_fault(e.code())),
        }
    }

    fn fabric_removal(&self, fab: u8) -> Answer {
        match NonZeroU8::new(fab) {
            // The type of the argument has no 0.
            None => with_status("F1"),
            Some(fab_idx) => self.lifecycle(LifecycleOp::FabricRemoval { fab_idx }),
        }
    }

    fn factory_reset(&self) -> Answer {
        self.kv.removes.set(0);
        let answer = self.lifecycle(LifecycleOp::FactoryReset);
        assert_eq!(self.kv.removes.get(), 1);
        answer
    }

    /// Startup without a saved table.
    fn startup(&self) -> Answer {
        *self.kv.image.borrow_mut() = None;
        self.lifecycle(LifecycleOp::Startup)
    }

    /// The image that the table would be saved as.
    fn save(&self) -> Answer {
        match self.state.image() {
            Ok(image) => {
                let values = vec![hex(&image)];
                *self.saved.borrow_mut() = image;
                Answer { values, ..with_status("00") }
            }
            Err(e) => with_status(&host_fault(e.code())),
        }
    }

    /// Startup with a saved image. Number 10 is not the Rust's: it is decided here, on what the Rust made of the image in
    /// a table of its own.
    fn load(&self, image: &[u8]) -> Answer {
        let other = new_table::<N>(false);
        if other.start_with(image).is_err() {
            return with_status("F9");
        }
        if clashes(&other.state.dump()) {
            return with_status("F10");
        }
        match self.start_with(image) {
            Ok(()) => with_status("00"),
            Err(e) => with_status(&host_fault(e.code())),
        }
    }

    fn start_with(&self, image: &[u8]) -> Result<(), Error> {
        *self.kv.image.borrow_mut() = Some(image.to_vec());
        let groups = Groups::new(0, 0, &[]);
        let clusters = Clusters::default();
        let handler = ScenesHandler::new(Dataver::new(0), &groups, &self.state, &clusters);
        handler.lifecycle(self.ctx(0, 0), LifecycleOp::Startup)
    }

    /// The same entries, records and version in a table of its own, not in share mode.
    fn copied(&self) -> Box<Self> {
        let Dump { entries, records, version } = self.state.dump();
        let other = new_table::<N>(false);
        assert!(entries.iter().all(|e| other.state.push_entry(e)) && records.iter().all(|r| other.state.push_record(r)));
        other.state.set_version(version);
        other
    }

    /// The answer to a call that only the share refuses. This table's Rust is not given it. That nothing else refuses it is
    /// asserted: on a copy of the table the Rust takes the new scene.
    fn refused_by_share(&self, call: &Call) -> Answer {
        let other = self.copied();
        let taken = other.call(call);
        assert_eq!((taken.status.as_str(), other.counts().0), ("00", self.counts().0 + 1), "not refused by the share alone");
        Answer { marks: vec!["SHARE".into()], ..with_status("89") }
    }

    fn dump(&self) -> Answer {
        let Dump { entries, records, version } = self.state.dump();
        let mut lines = vec![format!("D {} {} {}", entries.len(), records.len(), version)];
        lines.extend(
            entries
                .iter()
                .map(|e| format!(" e {} {} {} {} {} {}", e.fab, e.ep, e.group, e.scene, e.time, hex(&e.fields))),
        );
        lines
            .extend(records.iter().map(|r| format!(" r {} {} {} {} {}", r.fab, r.ep, r.group, r.scene, r.valid as u8)));
        Answer { lines, ..Answer::default() }
    }

    fn call(&self, call: &Call) -> Answer {
        let pushed = |fits: bool| with_status(if fits { "00" } else { "F6" });
        match call {
            Call::Add(add) => self.add(add),
            Call::Store(at, member, captured) => self.store(at, *member, captured),
            Call::View(at, member) => self.view(at, *member),
            Call::Remove(at, member) => self.remove(at, *member),
            Call::RemoveAll(at, member) => self.remove_all(at, *member),
            Call::Membership(at, member) => self.membership(at, *member),
            Call::Copy(copy) => self.copy(copy),
            Call::Recall(recall) => self.recall(recall),
            Call::Info { fab, ep, kind } => self.info(*fab, *ep, *kind),
            Call::Notice(ep) => {
                self.state.scenable_attribute_changed(*ep);
                with_status("00")
            }
            Call::FabricRemoval(fab) => self.fabric_removal(*fab),
            Call::FactoryReset => self.factory_reset(),
            Call::Startup => self.startup(),
            Call::FailSafeCommit => self.lifecycle(LifecycleOp::FailSafeCommit),
            Call::FailSafeExpiry => self.lifecycle(LifecycleOp::FailSafeExpiry),
            Call::Dump => self.dump(),
            Call::SetVersion(version) => {
                self.state.set_version(*version);
                with_status("00")
            }
            Call::PushEntry(entry) => pushed(self.state.push_entry(entry)),
            Call::PushRecord(record) => pushed(self.state.push_record(record)),
            Call::Save => self.save(),
            Call::Load(Some(image)) => self.load(image),
            Call::Load(None) => self.load(&self.saved.borrow().clone()),
        }
    }

    /// The answer of this table's Rust, with its save mark.
    fn given(&self, call: &Call) -> Answer {
        self.kv.writes.set(0);
        self.notified.set(0);
        let mut answer = self.call(call);
        answer.save = self.kv.writes.get() > 0;
        assert!(self.kv.writes.get() <= 1);
        if answer.save {
            // What was saved is the table as it now stands.
            assert_eq!(self.kv.image.borrow().as_deref(), self.state.image().ok().as_deref());
        }
        if !matches!(call, Call::FabricRemoval(_)) {
            // A command that saves reports the changed attribute, once; fabric removal does not.
            assert_eq!(self.notified.get(), answer.save as u32);
        }
        answer
    }
}

/// Document 02's number 10: two entries with one key, two records of one fabric, or scene 0 or 255 anywhere.
fn clashes(table: &Dump) -> bool {
    let reserved = |scene: u8| scene == 0 || scene == 255;
    let (mut keys, mut fabrics) = (HashSet::new(), HashSet::new());
    table.entries.iter().any(|e| reserved(e.scene) || !keys.insert((e.fab, e.ep, e.group, e.scene)))
        || table.records.iter().any(|r| reserved(r.scene) || !fabrics.insert(r.fab))
}

/// What the published code makes of field bytes that are no proper list of sets.
fn walk_marks(request: &AddSceneRequest<'_>, fields: &[u8]) -> Vec<String> {
    match request.extension_field_set_structs().map(|sets| sets.element().raw_value()) {
        // scenes.rs takes this error for "no fields"
        Err(_) => vec!["EFSNONE".into()],
        Ok(raw) if raw.as_deref().ok() != Some(fields) => vec!["RAWDIFF".into()],
        Ok(_) => Vec::new(),
    }
}

/// The pairs that the published code asked about.
fn asked_mark(clusters: &Clusters) -> String {
    let asked = clusters.asked.borrow();
    let pairs = asked.iter().map(|(cluster, attribute)| format!("{cluster}:{attribute}"));
    format!("asked={}", joined(pairs.collect()))
}

/// Recall has no response: its statuses are errors, told apart by what the call was given.
fn recall_status(handled: &Handled, at: &Address, found: bool) -> String {
    let reserved = at.scene == 0 || at.scene == 255;
    match handled.error() {
        None => "00".into(),
        Some(ErrorCode::ConstraintError) if reserved => "87".into(),
        Some(ErrorCode::InvalidCommand) if handled.said_no => "85".into(),
        Some(ErrorCode::NotFound) if !found => "8B".into(),
        Some(code @ (ErrorCode::UnsupportedAccess | ErrorCode::HostMembership | ErrorCode::NullableRange)) => {
            host_fault(code)
        }
        // `apply` failed, or the stored bytes could not be read
        Some(_) if found => "F4".into(),
        Some(code) => host_fault(code),
    }
}

/// The time and the sets that `apply` was given, and the entry's own time and fields.
fn recall_values(clusters: &Clusters, at: &Address, found: Entry) -> Vec<String> {
    let applies = clusters.applies.borrow();
    let time = applies.first().map(|a| a.time);
    assert!(applies.iter().all(|a| a.ep == at.ep && Some(a.time) == time));
    let sets = applies.iter().map(|a| format!("{}:{}", a.cluster, hex(&a.pairs))).collect();
    vec![time.map_or("-".into(), |t| t.to_string()), joined(sets), found.time.to_string(), hex(&found.fields)]
}

fn info_values(handled: &Handled) -> Vec<String> {
    if handled.told.is_empty() {
        return vec!["none".into()];
    }
    let names = ["scene_count", "current_group", "current_scene", "scene_valid", "remaining_capacity", "fabric_index"];
    names.iter().map(|name| handled.value(name).unwrap().to_string()).collect()
}

impl<const N: usize> AnyTable for Table<N> {
    fn counts(&self) -> (usize, usize, u32) {
        self.state.counts()
    }

    fn run(&self, call: &Call) -> Answer {
        let held = search::held(call, &self.state);
        let is_refused = self.shared && share::alone_refuses(call, N, &self.state);
        let mut answer = if is_refused { self.refused_by_share(call) } else { self.given(call) };
        // The answer line of a store ends with its count, at every status.
        answer.values.extend(held.map(|held| search::told(held, &answer.status).to_string()));
        answer
    }
}

fn new_table<const N: usize>(shared: bool) -> Box<Table<N>> {
    let (notified, saved) = (Cell::new(0), RefCell::default());
    Box::new(Table { state: ScenesState::new(), kv: Kv::default(), notified, saved, shared })
}

fn make<const N: usize>(shared: bool) -> Box<dyn AnyTable> {
    new_table::<N>(shared)
}

macro_rules! sizes {
    ($($size:literal)*) => {
        /// An empty table, if its size is among those that are compiled.
        pub fn table(size: u64, modes: u8) -> Option<Box<dyn AnyTable>> {
            let shared = share::is_share_mode(modes);
            match size {
                $( $size => Some(make::<$size>(shared)), )*
                _ => None,
            }
        }
    };
}

// In the Rust the size is a constant of the type: each is compiled for itself. ../driver/sizes.rs has the same list.
sizes!(
    0 1 2 3 4 5 6 7 8 9 10 11 12 15 16 17 18 24 31 32 33 64 128 200 255 256 257 300
    506 507 508 509 510 511 512 513 514 515 768 1000 1023 1024
);
