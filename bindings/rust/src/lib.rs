//! Safe calls of the proved route search. Outcomes, tables and buffers are those of include/ojeonbut.h.
//! A record of a table is an arc: start node, end node, length and road number, 4 bytes each, little-endian; road number 0 is a road of its own.
//! What that header asks of a caller, Rust's slices ensure: they are valid for their lengths, and a `&mut` one overlaps no other.

/// The version of include/ojeonbut.h that these calls are for. Each call asks once that the archive linked is of it, and panics where it is not.
pub const VERSION: u32 = 10;

/// Bytes of a label.
pub const LABEL: usize = 128;

/// Bytes of a record in a file of accepted plans.
pub const PLAN_RECORD: usize = 32;

/// The most words of a slot that a plan is stored from.
pub const PLAN_WIDTH: u32 = 65535;

/// Bytes of working room for each node.
pub const WORK: usize = 64;

/// A word of a slot that holds no arc.
pub const NONE: u32 = u32::MAX;

/// The outcomes, by number. What the number beside each says is in include/ojeonbut.h.
pub mod outcome {
    /// All k routes found; from `pair`: the pair found; from `variety`: the k routes chosen, beside it the number listed; from `check`: the table has no fault; from the calls for road files and for plans: done.
    pub const FOUND: u32 = 0;
    /// Fewer than k routes found, and no further one exists.
    pub const FEWER: u32 = 1;
    /// A record names a node not below the node count.
    pub const NODE: u32 = 2;
    /// A record starts and ends at one node.
    pub const LOOP: u32 = 3;
    /// A length is outside 1 to 1,000,000.
    pub const BAD_LENGTH: u32 = 4;
    // 5 is never given, and the number stays free.
    /// A record's start node is below the one before it.
    pub const ORDER: u32 = 6;
    /// Start or goal not below the node count, or equal.
    pub const ENDS: u32 = 7;
    /// k outside 1 to 12.
    pub const WANTED: u32 = 8;
    /// b outside 1 to 1,000, or a not below b.
    pub const THRESHOLD: u32 = 9;
    /// Area, summaries or working room too few, labels too many, or too short an area for a table, a text or a plan's slots.
    pub const BUFFERS: u32 = 10;
    /// A round needs more labels than were lent.
    pub const ROOM: u32 = 11;
    /// Node count, table bytes or number of records outside their limits.
    pub const SIZE: u32 = 13;
    /// A road file is malformed; beside it stands the line.
    pub const FILE: u32 = 14;
    /// Closure bytes of another number than the arcs, or one that is neither 0 nor 1.
    pub const CLOSURES: u32 = 15;
    /// A file of accepted plans is out of form.
    pub const PLAN_FILE: u32 = 16;
    /// Plan number zero; on storing, not 1 to 12 routes, an empty one, slots out of form, or an arc number above 262,143.
    pub const PLAN_REQUEST: u32 = 17;
    /// The plan is already there, on storing; it is absent, on fetching or withdrawing.
    pub const PLAN_THERE: u32 = 18;
    /// Fewer free records than the plan needs.
    pub const PLAN_ROOM: u32 = 19;
    /// A second table is not the first one's arcs in order of end node and then arc number.
    pub const SECOND: u32 = 20;
    /// No two routes from start to goal share no arc.
    pub const NO_PAIR: u32 = 21;
    /// d outside 1 to 1,000, or c above d.
    pub const RANGE: u32 = 22;
    /// More routes in range than the list has whole slots.
    pub const LIST_FULL: u32 = 23;
    /// Fewer than k routes in range.
    pub const TOO_FEW: u32 = 24;
    /// A table to be written as a road file has a road number other than 0; beside it stands the record.
    pub const NUMBERED: u32 = 27;
}

/// The outcome's number, and the number beside it.
#[repr(C)]
#[derive(Clone, Copy, Debug, PartialEq, Eq)]
pub struct Reply {
    pub outcome: u32,
    pub number: u32,
}

#[repr(C)]
struct Part {
    place: usize,
    bytes: usize,
}

/// Which arcs of a node: those that leave it, which stand in the first table, or those that come to it, in the second.
#[derive(Clone, Copy, Debug, PartialEq, Eq)]
pub enum Direction {
    Leaving = 0,
    Coming = 1,
}

/// One round: the answer's length and number of arcs, and the round's label count.
#[repr(C)]
#[derive(Clone, Copy, Debug, Default, PartialEq, Eq)]
pub struct Summary {
    pub length: u64,
    pub arcs: u64,
    pub labels: u64,
}

/// The two figures of a route: the greatest overlap with an earlier route over that one's length, and its length over the first route's. Each is one division, rounded once.
#[repr(C)]
#[derive(Clone, Copy, Debug, Default, PartialEq)]
pub struct Ratios {
    pub overlap: f64,
    pub detour: f64,
}

/// What a call for road files made: the bytes of the table or the text and, of a table, its node count. A refusal has bytes and nodes 0.
#[repr(C)]
#[derive(Clone, Copy, Debug, PartialEq, Eq)]
pub struct Made {
    pub outcome: u32,
    pub number: u32,
    pub bytes: usize,
    pub nodes: u32,
}

mod raw {
    use super::{Made, Part, Ratios, Reply, Summary};

    extern "C" {
        pub fn ojeonbut_version() -> u32;
        pub fn ojeonbut_check(table: *const u8, table_bytes: usize, nodes: u32) -> Reply;
        pub fn ojeonbut_arcs_from(table: *const u8, table_bytes: usize, nodes: u32, node: u32) -> Part;
        pub fn ojeonbut_query(
            table: *const u8,
            table_bytes: usize,
            nodes: u32,
            start: u32,
            goal: u32,
            k: u32,
            a: u32,
            b: u32,
            labels: *mut u8,
            label_bytes: usize,
            area: *mut u32,
            area_words: usize,
            summaries: *mut Summary,
            summary_count: usize,
        ) -> Reply;
        pub fn ojeonbut_query_closed(
            table: *const u8,
            table_bytes: usize,
            nodes: u32,
            start: u32,
            goal: u32,
            k: u32,
            a: u32,
            b: u32,
            closed: *const u8,
            closed_bytes: usize,
            labels: *mut u8,
            label_bytes: usize,
            area: *mut u32,
            area_words: usize,
            summaries: *mut Summary,
            summary_count: usize,
        ) -> Reply;
        pub fn ojeonbut_query_ratios(
            table: *const u8,
            table_bytes: usize,
            nodes: u32,
            start: u32,
            goal: u32,
            k: u32,
            a: u32,
            b: u32,
            closed: *const u8,
            closed_bytes: usize,
            labels: *mut u8,
            label_bytes: usize,
            area: *mut u32,
            area_words: usize,
            summaries: *mut Summary,
            summary_count: usize,
            ratios: *mut Ratios,
            ratio_count: usize,
        ) -> Reply;
        pub fn ojeonbut_query_via(
            table: *const u8,
            table_bytes: usize,
            second: *const u8,
            second_bytes: usize,
            nodes: u32,
            start: u32,
            goal: u32,
            k: u32,
            a: u32,
            b: u32,
            closed: *const u8,
            closed_bytes: usize,
            area: *mut u32,
            area_words: usize,
            summaries: *mut Summary,
            summary_count: usize,
            work: *mut u8,
            work_bytes: usize,
        ) -> Reply;
        pub fn ojeonbut_pair(
            table: *const u8,
            table_bytes: usize,
            nodes: u32,
            start: u32,
            goal: u32,
            closed: *const u8,
            closed_bytes: usize,
            area: *mut u32,
            area_words: usize,
            summaries: *mut Summary,
            summary_count: usize,
            work: *mut u8,
            work_bytes: usize,
        ) -> Reply;
        pub fn ojeonbut_variety(
            table: *const u8,
            table_bytes: usize,
            nodes: u32,
            start: u32,
            goal: u32,
            k: u32,
            c: u32,
            d: u32,
            closed: *const u8,
            closed_bytes: usize,
            list: *mut u32,
            list_words: usize,
            area: *mut u32,
            area_words: usize,
            work: *mut u8,
            work_bytes: usize,
        ) -> Reply;
        pub fn ojeonbut_run(table: *const u8, table_bytes: usize, second: *const u8, second_bytes: usize, nodes: u32, direction: u32, node: u32) -> Part;
        pub fn ojeonbut_next_arc(closed: *const u8, closed_bytes: usize, place: usize, end: usize) -> usize;
        pub fn ojeonbut_read_roads(text: *const u8, text_bytes: usize, table: *mut u8, table_bytes: usize) -> Made;
        pub fn ojeonbut_write_roads(table: *const u8, table_bytes: usize, nodes: u32, text: *mut u8, text_bytes: usize) -> Made;
        pub fn ojeonbut_plan_store(file: *mut u8, file_bytes: usize, plan: u32, slots: *const u32, slot_words: usize, routes: u32, width: u32) -> Reply;
        pub fn ojeonbut_plan_fetch(file: *const u8, file_bytes: usize, plan: u32, slots: *mut u32, slot_words: usize, width: u32) -> Reply;
        pub fn ojeonbut_plan_withdraw(file: *mut u8, file_bytes: usize, plan: u32) -> Reply;
        pub fn ojeonbut_plan_collect(file: *mut u8, file_bytes: usize) -> Reply;
    }
}

/// The version of the archive that is linked.
pub fn version() -> u32 {
    // SAFETY: it takes nothing and reads nothing.
    unsafe { raw::ojeonbut_version() }
}

fn ask_version() {
    static ASKED: std::sync::Once = std::sync::Once::new();
    ASKED.call_once(|| assert_eq!(version(), VERSION, "libojeonbut.a is of another version than this binding"));
}

/// The fault of a table, or outcome 0.
pub fn check(table: &[u8], nodes: u32) -> Reply {
    ask_version();
    // SAFETY: the slice is valid for its length, and the call only reads it.
    unsafe { raw::ojeonbut_check(table.as_ptr(), table.len(), nodes) }
}

/// The records of the arcs that leave `node`; none where the table has a fault or there is no such node.
pub fn arcs_from(table: &[u8], nodes: u32, node: u32) -> &[u8] {
    ask_version();
    // SAFETY: as for `check`.
    let part = unsafe { raw::ojeonbut_arcs_from(table.as_ptr(), table.len(), nodes, node) };
    &table[part.place..part.place + part.bytes]
}

/// The query. `threshold` is a/b.
#[allow(clippy::too_many_arguments)]
pub fn query(
    table: &[u8],
    nodes: u32,
    start: u32,
    goal: u32,
    k: u32,
    threshold: (u32, u32),
    labels: &mut [u8],
    area: &mut [u32],
    summaries: &mut [Summary],
) -> Reply {
    ask_version();
    // SAFETY: each slice is valid for its length; the three that are written are borrowed mutably, so they overlap nothing.
    unsafe {
        raw::ojeonbut_query(
            table.as_ptr(),
            table.len(),
            nodes,
            start,
            goal,
            k,
            threshold.0,
            threshold.1,
            labels.as_mut_ptr(),
            labels.len(),
            area.as_mut_ptr(),
            area.len(),
            summaries.as_mut_ptr(),
            summaries.len(),
        )
    }
}

/// The query while roads are closed: `closed` has a byte for each arc, 0 open and 1 closed.
#[allow(clippy::too_many_arguments)]
pub fn query_closed(
    table: &[u8],
    nodes: u32,
    start: u32,
    goal: u32,
    k: u32,
    threshold: (u32, u32),
    closed: &[u8],
    labels: &mut [u8],
    area: &mut [u32],
    summaries: &mut [Summary],
) -> Reply {
    ask_version();
    // SAFETY: each slice is valid for its length; the three that are written are borrowed mutably, so they overlap nothing.
    unsafe {
        raw::ojeonbut_query_closed(
            table.as_ptr(),
            table.len(),
            nodes,
            start,
            goal,
            k,
            threshold.0,
            threshold.1,
            closed.as_ptr(),
            closed.len(),
            labels.as_mut_ptr(),
            labels.len(),
            area.as_mut_ptr(),
            area.len(),
            summaries.as_mut_ptr(),
            summaries.len(),
        )
    }
}

/// The query while roads are closed, with the ratios of its routes.
#[allow(clippy::too_many_arguments)]
pub fn query_ratios(
    table: &[u8],
    nodes: u32,
    start: u32,
    goal: u32,
    k: u32,
    threshold: (u32, u32),
    closed: &[u8],
    labels: &mut [u8],
    area: &mut [u32],
    summaries: &mut [Summary],
    ratios: &mut [Ratios],
) -> Reply {
    ask_version();
    // SAFETY: each slice is valid for its length; the four that are written are borrowed mutably, so they overlap nothing.
    unsafe {
        raw::ojeonbut_query_ratios(
            table.as_ptr(),
            table.len(),
            nodes,
            start,
            goal,
            k,
            threshold.0,
            threshold.1,
            closed.as_ptr(),
            closed.len(),
            labels.as_mut_ptr(),
            labels.len(),
            area.as_mut_ptr(),
            area.len(),
            summaries.as_mut_ptr(),
            summaries.len(),
            ratios.as_mut_ptr(),
            ratios.len(),
        )
    }
}

/// The query for via routes while roads are closed: `second` is the table's records in order of end node and then arc number, `work` at least `WORK` bytes for each node.
#[allow(clippy::too_many_arguments)]
pub fn query_via(
    table: &[u8],
    second: &[u8],
    nodes: u32,
    start: u32,
    goal: u32,
    k: u32,
    threshold: (u32, u32),
    closed: &[u8],
    area: &mut [u32],
    summaries: &mut [Summary],
    work: &mut [u8],
) -> Reply {
    ask_version();
    // SAFETY: each slice is valid for its length; the three that are written are borrowed mutably, so they overlap nothing.
    unsafe {
        raw::ojeonbut_query_via(
            table.as_ptr(),
            table.len(),
            second.as_ptr(),
            second.len(),
            nodes,
            start,
            goal,
            k,
            threshold.0,
            threshold.1,
            closed.as_ptr(),
            closed.len(),
            area.as_mut_ptr(),
            area.len(),
            summaries.as_mut_ptr(),
            summaries.len(),
            work.as_mut_ptr(),
            work.len(),
        )
    }
}

/// Two routes that share no arc, of least total length, while roads are closed: `work` has at least `WORK` bytes for each node.
#[allow(clippy::too_many_arguments)]
pub fn pair(table: &[u8], nodes: u32, start: u32, goal: u32, closed: &[u8], area: &mut [u32], summaries: &mut [Summary], work: &mut [u8]) -> Reply {
    ask_version();
    // SAFETY: each slice is valid for its length; the three that are written are borrowed mutably, so they overlap nothing.
    unsafe {
        raw::ojeonbut_pair(
            table.as_ptr(),
            table.len(),
            nodes,
            start,
            goal,
            closed.as_ptr(),
            closed.len(),
            area.as_mut_ptr(),
            area.len(),
            summaries.as_mut_ptr(),
            summaries.len(),
            work.as_mut_ptr(),
            work.len(),
        )
    }
}

/// The most different k of the routes at most c/d of the shortest longer than it, while roads are closed: `range` is c/d, `list` takes all routes in range in slots of
/// `nodes - 1` words, `work` has at least `WORK` bytes for each node.
#[allow(clippy::too_many_arguments)]
pub fn variety(
    table: &[u8],
    nodes: u32,
    start: u32,
    goal: u32,
    k: u32,
    range: (u32, u32),
    closed: &[u8],
    list: &mut [u32],
    area: &mut [u32],
    work: &mut [u8],
) -> Reply {
    ask_version();
    // SAFETY: each slice is valid for its length; the three that are written are borrowed mutably, so they overlap nothing.
    unsafe {
        raw::ojeonbut_variety(
            table.as_ptr(),
            table.len(),
            nodes,
            start,
            goal,
            k,
            range.0,
            range.1,
            closed.as_ptr(),
            closed.len(),
            list.as_mut_ptr(),
            list.len(),
            area.as_mut_ptr(),
            area.len(),
            work.as_mut_ptr(),
            work.len(),
        )
    }
}

/// The run of one node, a part of either table according to direction; empty where the table has a fault, the second is not its arcs in order, or there is no such node.
pub fn run<'a>(table: &'a [u8], second: &'a [u8], nodes: u32, direction: Direction, node: u32) -> &'a [u8] {
    ask_version();
    // SAFETY: both slices are valid for their lengths, and the call only reads them.
    let part = unsafe { raw::ojeonbut_run(table.as_ptr(), table.len(), second.as_ptr(), second.len(), nodes, direction as u32, node) };
    let whole = match direction {
        Direction::Leaving => table,
        Direction::Coming => second,
    };
    &whole[part.place..part.place + part.bytes]
}

/// The first arc from `place` on that is open, or `end`: the step along a node's run that the query takes.
pub fn next_arc(closed: &[u8], place: usize, end: usize) -> usize {
    ask_version();
    // SAFETY: as for `check`.
    unsafe { raw::ojeonbut_next_arc(closed.as_ptr(), closed.len(), place, end) }
}

/// A road file read into a table at the front of `table`.
pub fn read_roads(text: &[u8], table: &mut [u8]) -> Made {
    ask_version();
    // SAFETY: both slices are valid for their lengths, and the one that is written is borrowed mutably.
    unsafe { raw::ojeonbut_read_roads(text.as_ptr(), text.len(), table.as_mut_ptr(), table.len()) }
}

/// A table written as a road file at the front of `text`.
pub fn write_roads(table: &[u8], nodes: u32, text: &mut [u8]) -> Made {
    ask_version();
    // SAFETY: as for `read_roads`.
    unsafe { raw::ojeonbut_write_roads(table.as_ptr(), table.len(), nodes, text.as_mut_ptr(), text.len()) }
}

/// The routes in `routes` slots of `width` words stored as a plan, in the lowest free records of `file`.
pub fn plan_store(file: &mut [u8], plan: u32, slots: &[u32], routes: u32, width: u32) -> Reply {
    ask_version();
    // SAFETY: as for `read_roads`.
    unsafe { raw::ojeonbut_plan_store(file.as_mut_ptr(), file.len(), plan, slots.as_ptr(), slots.len(), routes, width) }
}

/// A plan's routes fetched into slots of `width` words at the front of `slots`; beside outcome 0 stands their number.
pub fn plan_fetch(file: &[u8], plan: u32, slots: &mut [u32], width: u32) -> Reply {
    ask_version();
    // SAFETY: as for `read_roads`.
    unsafe { raw::ojeonbut_plan_fetch(file.as_ptr(), file.len(), plan, slots.as_mut_ptr(), slots.len(), width) }
}

/// A plan's records made free.
pub fn plan_withdraw(file: &mut [u8], plan: u32) -> Reply {
    ask_version();
    // SAFETY: the slice is valid for its length and borrowed mutably.
    unsafe { raw::ojeonbut_plan_withdraw(file.as_mut_ptr(), file.len(), plan) }
}

/// The records in use moved to the front of the file in their order, and zeros after them.
pub fn plan_collect(file: &mut [u8]) -> Reply {
    ask_version();
    // SAFETY: as for `plan_withdraw`.
    unsafe { raw::ojeonbut_plan_collect(file.as_mut_ptr(), file.len()) }
}
