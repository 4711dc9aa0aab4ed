// Made of include/g1heap.h by tools/write_calls: change the header, and run that.
#![allow(missing_docs, non_camel_case_types)]
use std::os::raw::c_void;

#[repr(C)]
#[derive(Debug)]
pub struct g1_heap {
    pub live: bool,
    pub at: *mut c_void,
    pub markings: u64,
}

#[repr(C)]
#[derive(Clone, Copy, Debug, Default)]
pub struct g1_sizes {
    pub regions: u32,
    pub words: u32,
    pub buffer: u32,
    pub mutators: u32,
    pub first_name: u64,
    pub card: u32,
    pub globals: u32,
    pub registers: u32,
}

#[repr(C)]
#[derive(Clone, Copy, Debug, Default)]
pub struct g1_answer {
    pub code: u32,
    pub second: u32,
    pub first: u64,
}

#[repr(C)]
#[derive(Clone, Copy, Debug, Default)]
pub struct g1_object {
    pub name: u64,
    pub word: u64,
    pub pointers: u32,
    pub weaks: u32,
    pub values: u32,
}

#[repr(C)]
#[derive(Clone, Copy, Debug, Default)]
pub struct g1_holder {
    pub name: u64,
    pub kind: u32,
    pub mutator: u32,
    pub place: u32,
    pub fields: u32,
}

#[repr(C)]
#[derive(Clone, Copy, Debug, Default)]
pub struct g1_policy {
    pub reserve: u32,
    pub pause_words: u32,
    pub mark_words: u32,
    pub cycle_words: u32,
    pub young_words: u32,
    pub cards_left: u32,
    pub visit_cards: u32,
    pub clear_objects: u32,
    pub least: u32,
    pub look: u32,
    pub left: u32,
    pub begin_at: u32,
    pub young_at: u32,
    pub span: u32,
    pub young: u32,
    pub gained: u32,
    pub wanted: u32,
    pub held: u32,
    pub most: u32,
    pub idle: u32,
    pub pace: u32,
    pub visits: u32,
    pub clears: u32,
    pub cleared: u32,
    pub last: u32,
    pub packed_free: u32,
    pub packed_live: u64,
    pub packed_next: u64,
    pub paid: u64,
    pub asked: u64,
    pub rest: u64,
    pub looked: u64,
    pub marked: u64,
    pub cycles: u64,
    pub scanned: u64,
    pub pauses: u64,
    pub copied: u64,
    pub compactions: u64,
    pub compacted: u64,
    pub nil_on_full: u32,
    pub reserved: [u32; 11],
}

pub const G1_HEAP_NONE: g1_heap = g1_heap { live: false, at: std::ptr::null_mut(), markings: 0 };
pub const G1_MAX_REGIONS: u32 = 16384;
pub const G1_MAX_REGION_WORDS: u32 = 4194304;
pub const G1_MAX_WORDS: u32 = 2147483648;
pub const G1_MAX_MUTATORS: u32 = 64;
pub const G1_MAX_CARD: u32 = 512;
pub const G1_MAX_GLOBALS: u32 = 65536;
pub const G1_MAX_REGISTERS: u32 = 65536;
pub const G1_MAX_ROOTS: u32 = 1048576;
pub const G1_MAX_OBJECT_WORDS: u32 = 16777216;
pub const G1_MAX_WEAKS: u32 = 255;
pub const G1_VERSION: &str = "0.1.0";
pub const G1_VERSION_MAJOR: u32 = 0;
pub const G1_VERSION_MINOR: u32 = 1;
pub const G1_VERSION_PATCH: u32 = 0;
pub const G1_NIL_REGISTER: u32 = u32::MAX;
pub const G1_DONE: u32 = 0;
pub const G1_NIL_VALUE: u32 = 1;
pub const G1_NAME: u32 = 2;
pub const G1_WORD: u32 = 3;
pub const G1_SHAPE: u32 = 4;
pub const G1_MARKED: u32 = 5;
pub const G1_RECLAIMED: u32 = 6;
pub const G1_REFINED: u32 = 7;
pub const G1_MOVED: u32 = 8;
pub const G1_SCANNED: u32 = 9;
pub const G1_NUMBER: u32 = 10;
pub const G1_NIL: u32 = 16;
pub const G1_NO_FIELD: u32 = 17;
pub const G1_FULL: u32 = 18;
pub const G1_TOO_BIG: u32 = 19;
pub const G1_NAMES_SPENT: u32 = 20;
pub const G1_MARK_RUNNING: u32 = 21;
pub const G1_NOT_MARKING: u32 = 22;
pub const G1_NO_STEP: u32 = 32;
pub const G1_NO_HEAP: u32 = 33;
pub const G1_HEAP_LIVE: u32 = 34;
pub const G1_BAD_REGIONS: u32 = 41;
pub const G1_BAD_WORDS: u32 = 42;
pub const G1_BAD_BUFFER: u32 = 43;
pub const G1_BAD_MUTATORS: u32 = 44;
pub const G1_NO_MEMORY: u32 = 45;
pub const G1_BAD_CARD: u32 = 46;
pub const G1_BAD_GLOBALS: u32 = 47;
pub const G1_BAD_REGISTERS: u32 = 48;
pub const G1_BAD_ROOTS: u32 = 49;
pub const G1_GLOBAL: u32 = 0;
pub const G1_REGISTER: u32 = 1;
pub const G1_POINTER: u32 = 2;
pub const G1_WEAK_SLOT: u32 = 3;

extern "C" {
    pub fn g1_version() -> u32;
    pub fn g1_new(heap: *mut g1_heap, sizes: *const g1_sizes) -> u32;
    pub fn g1_sizes_bytes(sizes: *const g1_sizes) -> u64;
    pub fn g1_free(heap: *mut g1_heap);
    pub fn g1_new_object(heap: *mut g1_heap, mutator: u32, to: u32, pointers: u32, values: u32) -> g1_answer;
    pub fn g1_new_weak(heap: *mut g1_heap, mutator: u32, to: u32, pointers: u32, weaks: u32, values: u32) -> g1_answer;
    pub fn g1_get(heap: *mut g1_heap, mutator: u32, to: u32, object: u32, field: u32) -> g1_answer;
    pub fn g1_put(heap: *mut g1_heap, mutator: u32, object: u32, field: u32, from: u32) -> g1_answer;
    pub fn g1_read(heap: *mut g1_heap, mutator: u32, object: u32, field: u32) -> g1_answer;
    pub fn g1_write(heap: *mut g1_heap, mutator: u32, object: u32, field: u32, value: u64) -> g1_answer;
    pub fn g1_move(heap: *mut g1_heap, mutator: u32, to: u32, from: u32) -> g1_answer;
    pub fn g1_drop(heap: *mut g1_heap, mutator: u32, to: u32) -> g1_answer;
    pub fn g1_load(heap: *mut g1_heap, mutator: u32, to: u32, global: u32) -> g1_answer;
    pub fn g1_save(heap: *mut g1_heap, mutator: u32, global: u32, from: u32) -> g1_answer;
    pub fn g1_shape(heap: *mut g1_heap, mutator: u32, object: u32) -> g1_answer;
    pub fn g1_get_weak(heap: *mut g1_heap, mutator: u32, to: u32, object: u32, slot: u32) -> g1_answer;
    pub fn g1_put_weak(heap: *mut g1_heap, mutator: u32, object: u32, slot: u32, from: u32) -> g1_answer;
    pub fn g1_weaks(heap: *mut g1_heap, mutator: u32, object: u32) -> g1_answer;
    pub fn g1_scope(heap: *mut g1_heap, mutator: u32, first: u32) -> g1_answer;
    pub fn g1_get_word(heap: *mut g1_heap, mutator: u32, to: u32, object: u32, field: u32, word: u32) -> g1_answer;
    pub fn g1_get_many(heap: *mut g1_heap, mutator: u32, to: u32, object: u32, field: u32, count: u32) -> g1_answer;
    pub fn g1_put_many(heap: *mut g1_heap, mutator: u32, object: u32, field: u32, from: u32, count: u32) -> g1_answer;
    pub fn g1_fill(heap: *mut g1_heap, mutator: u32, object: u32, field: u32, from: u32, count: u32) -> g1_answer;
    pub fn g1_fill_words(heap: *mut g1_heap, mutator: u32, object: u32, field: u32, value: u64, count: u32) -> g1_answer;
    pub fn g1_read_words(heap: *mut g1_heap, mutator: u32, object: u32, from: u32, out: *mut u64, count: usize) -> g1_answer;
    pub fn g1_write_words(heap: *mut g1_heap, mutator: u32, object: u32, from: u32, r#in: *const u64, count: usize) -> g1_answer;
    pub fn g1_new_filled(
        heap: *mut g1_heap,
        mutator: u32,
        to: u32,
        from: *const u32,
        pointers: usize,
        words: *const u64,
        values: usize,
    ) -> g1_answer;
    pub fn g1_begin(heap: *mut g1_heap) -> g1_answer;
    pub fn g1_mark(heap: *mut g1_heap, words: u32) -> g1_answer;
    pub fn g1_remark(heap: *mut g1_heap) -> g1_answer;
    pub fn g1_cleanup(heap: *mut g1_heap) -> g1_answer;
    pub fn g1_refine(heap: *mut g1_heap, cards: u32) -> g1_answer;
    pub fn g1_pause(heap: *mut g1_heap, words: u32) -> g1_answer;
    pub fn g1_compact(heap: *mut g1_heap, words: u32) -> g1_answer;
    pub fn g1_pause_within(heap: *mut g1_heap, words: u32, cards: u32) -> g1_answer;
    pub fn g1_young(heap: *mut g1_heap, words: u32, cards: u32) -> g1_answer;
    pub fn g1_clear(heap: *mut g1_heap, objects: u32) -> g1_answer;
    pub fn g1_free_regions(heap: *const g1_heap) -> g1_answer;
    pub fn g1_free_run(heap: *const g1_heap) -> g1_answer;
    pub fn g1_used_words(heap: *const g1_heap) -> g1_answer;
    pub fn g1_live_words(heap: *const g1_heap) -> g1_answer;
    pub fn g1_marking(heap: *const g1_heap) -> g1_answer;
    pub fn g1_grey(heap: *const g1_heap) -> g1_answer;
    pub fn g1_clearing(heap: *const g1_heap) -> g1_answer;
    pub fn g1_markings(heap: *const g1_heap) -> g1_answer;
    pub fn g1_queued(heap: *const g1_heap) -> g1_answer;
    pub fn g1_globals(heap: *const g1_heap) -> g1_answer;
    pub fn g1_registers(heap: *const g1_heap) -> g1_answer;
    pub fn g1_name(heap: *const g1_heap, mutator: u32, of: u32) -> g1_answer;
    pub fn g1_walk(heap: *const g1_heap, cursor: *mut u64, objects: *mut g1_object, count: usize) -> g1_answer;
    pub fn g1_who(heap: *const g1_heap, name: u64, cursor: *mut u64, holders: *mut g1_holder, count: usize) -> g1_answer;
    pub fn g1_path(heap: *const g1_heap, name: u64, way: *mut g1_holder, count: usize) -> g1_answer;
    pub fn g1_give_back(heap: *mut g1_heap) -> g1_answer;
    pub fn g1_policy_start(policy: *mut g1_policy, sizes: *const g1_sizes);
    pub fn g1_make(heap: *mut g1_heap, policy: *mut g1_policy, mutator: u32, to: u32, pointers: u32, weaks: u32, values: u32) -> g1_answer;
    pub fn g1_make_filled(
        heap: *mut g1_heap,
        policy: *mut g1_policy,
        mutator: u32,
        to: u32,
        from: *const u32,
        pointers: usize,
        words: *const u64,
        values: usize,
    ) -> g1_answer;
    pub fn g1_collect(heap: *mut g1_heap, policy: *mut g1_policy) -> g1_answer;
    pub fn g1_collect_all(heap: *mut g1_heap, policy: *mut g1_policy) -> g1_answer;
    pub fn g1_shrink(heap: *mut g1_heap, policy: *mut g1_policy) -> g1_answer;
}

/// Hands a macro each call that takes a heap and numbers alone: the name of a method, and the call.
#[doc(hidden)]
#[macro_export]
macro_rules! each_call_of_numbers {
    ($take:ident) => {
        $take! {
            new_object = g1_new_object(mutator: u32, to: u32, pointers: u32, values: u32);
            new_weak = g1_new_weak(mutator: u32, to: u32, pointers: u32, weaks: u32, values: u32);
            get = g1_get(mutator: u32, to: u32, object: u32, field: u32);
            put = g1_put(mutator: u32, object: u32, field: u32, from: u32);
            read = g1_read(mutator: u32, object: u32, field: u32);
            write = g1_write(mutator: u32, object: u32, field: u32, value: u64);
            copy = g1_move(mutator: u32, to: u32, from: u32);
            drop = g1_drop(mutator: u32, to: u32);
            load = g1_load(mutator: u32, to: u32, global: u32);
            save = g1_save(mutator: u32, global: u32, from: u32);
            shape = g1_shape(mutator: u32, object: u32);
            get_weak = g1_get_weak(mutator: u32, to: u32, object: u32, slot: u32);
            put_weak = g1_put_weak(mutator: u32, object: u32, slot: u32, from: u32);
            weaks = g1_weaks(mutator: u32, object: u32);
            scope = g1_scope(mutator: u32, first: u32);
            get_word = g1_get_word(mutator: u32, to: u32, object: u32, field: u32, word: u32);
            get_many = g1_get_many(mutator: u32, to: u32, object: u32, field: u32, count: u32);
            put_many = g1_put_many(mutator: u32, object: u32, field: u32, from: u32, count: u32);
            fill = g1_fill(mutator: u32, object: u32, field: u32, from: u32, count: u32);
            fill_words = g1_fill_words(mutator: u32, object: u32, field: u32, value: u64, count: u32);
            begin = g1_begin();
            mark = g1_mark(words: u32);
            remark = g1_remark();
            cleanup = g1_cleanup();
            refine = g1_refine(cards: u32);
            pause = g1_pause(words: u32);
            compact = g1_compact(words: u32);
            pause_within = g1_pause_within(words: u32, cards: u32);
            young = g1_young(words: u32, cards: u32);
            clear = g1_clear(objects: u32);
            free_regions = g1_free_regions();
            free_run = g1_free_run();
            used_words = g1_used_words();
            live_words = g1_live_words();
            marking = g1_marking();
            grey = g1_grey();
            clearing = g1_clearing();
            markings = g1_markings();
            queued = g1_queued();
            globals = g1_globals();
            registers = g1_registers();
            name = g1_name(mutator: u32, of: u32);
            give_back = g1_give_back();
        }
    };
}
