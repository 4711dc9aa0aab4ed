/* The policy of collection of crate `collection`, over the calls of g1heap.h and without proofs: for the plain heap, which stands in for
   the proved one where the two are compared. C11 and C++17; plain_library.cpp includes it. */
#ifndef PLAIN_POLICY_H
#define PLAIN_POLICY_H

#include "../include/g1heap.h"
#include <string.h>

static inline uint32_t policy_least(uint32_t one, uint32_t other) { return one < other ? one : other; }
static inline uint32_t policy_most(uint32_t one, uint32_t other) { return one > other ? one : other; }
static inline uint32_t policy_above(uint32_t one, uint32_t other) { return one > other ? one - other : 0; }
static inline uint32_t policy_within(uint64_t number) { return number < UINT32_MAX ? (uint32_t)number : UINT32_MAX; }
static inline uint32_t policy_free(const g1_heap *heap) { return (uint32_t)g1_free_regions(heap).first; }

/* A heap with its policy, and what the policy can't read of the heap: its sizes, and a step that isn't taken but looked at. */
typedef struct policy_of {
    g1_heap *heap;
    g1_policy *policy;
    const g1_sizes *sizes;
    int (*fits_open)(g1_heap *heap, uint32_t mutator, uint32_t size);
    int (*has_run)(g1_heap *heap, uint32_t count);
    int (*has_name)(g1_heap *heap);
    uint64_t (*next_name)(g1_heap *heap);
    uint32_t (*ordinary)(g1_heap *heap, uint64_t *bounds);  /* how many regions are, and the sum of their live bounds */
    uint32_t (*ordinary_end)(g1_heap *heap);                /* the number above the highest of them, 0 where there is none */
} policy_of;

static inline uint32_t policy_regions(const g1_sizes *sizes, uint32_t words) { return policy_most(1, words / sizes->words); }
static inline uint32_t policy_pause_budget(const g1_sizes *sizes)
{
    uint32_t share = policy_within((uint64_t)sizes->regions * sizes->words / 32);
    return policy_most(policy_within((uint64_t)4 * sizes->words), policy_most(98304, policy_least(262144, share)));
}
/* How many regions are in play, and how many of a number of regions are beyond those held back. */
static inline uint32_t policy_in_play(const g1_policy *policy, const g1_sizes *sizes) { return policy_above(sizes->regions, policy->held); }
static inline uint32_t policy_free_in_play(const g1_policy *policy, uint32_t free) { return policy_above(free, policy->held); }
/* Where too few in play are free, so many of those held back are used before another cycle begins. */
static inline uint32_t policy_borrowed(const g1_policy *policy, const g1_sizes *sizes, uint32_t free)
{
    return policy_least(policy_in_play(policy, sizes), policy_least(policy->held, free)) / 8;
}
/* The reserve of the regions in play. */
static inline uint32_t policy_reserve(const g1_policy *policy, const g1_sizes *sizes)
{
    uint32_t share = (uint32_t)((uint64_t)policy->reserve * policy_in_play(policy, sizes) / policy_most(sizes->regions, 1));
    return policy_least(policy->reserve, policy_most(3, share));
}
/* The same, and those held back. */
static inline uint32_t policy_kept(const g1_policy *policy, const g1_sizes *sizes)
{
    return policy_within((uint64_t)policy->held + policy_reserve(policy, sizes));
}
static inline void policy_start(g1_policy *policy, const g1_sizes *sizes)
{
    g1_policy start;
    memset(&start, 0, sizeof start);
    start.reserve = policy_most(3, sizes->regions / 24);
    start.pause_words = policy_pause_budget(sizes);
    start.mark_words = policy_least(524288, policy_most(131072, policy_within((uint64_t)16 * sizes->words)));
    start.mark_words = policy_most(start.mark_words, policy_within((uint64_t)4 * sizes->words));
    start.cycle_words = policy_within((uint64_t)4 * policy_within((uint64_t)sizes->regions * sizes->words));
    start.young_words = 131072, start.cards_left = 4096, start.clear_objects = 16384, start.packed_next = UINT64_MAX;
    start.visit_cards = policy_most(16384, policy_least(65536, sizes->words));
    start.least = start.most = policy_least(sizes->regions, policy_most(64, 16777216 / policy_most(1, sizes->words)));
    start.held = sizes->regions - start.least;
    start.begin_at = start.held + policy_reserve(&start, sizes) + start.least / 8;
    start.span = policy_least(policy_regions(sizes, start.young_words), policy_most(1, start.least / 4));
    start.young_at = policy_above(sizes->regions, start.span);
    *policy = start;
}

static inline g1_answer policy_moved(policy_of *of, g1_answer moved)
{
    of->policy->pauses++, of->policy->copied += moved.first;
    return moved;
}
static inline g1_answer policy_pause(policy_of *of, uint32_t words) { return policy_moved(of, g1_pause(of->heap, words)); }
static inline uint32_t policy_cards(policy_of *of)
{
    return (uint32_t)((uint64_t)of->sizes->regions * of->sizes->words / of->sizes->card);
}
/* The cards that may lead into the regions of a pause. */
static inline uint32_t policy_visits(policy_of *of) { return policy_most(of->policy->visits, of->policy->visit_cards); }
/* Takes note of a pause within cards: where it gained little for them, the next one may visit more; and it rests. */
static inline void policy_note_pause(policy_of *of, uint32_t before, g1_answer moved)
{
    uint64_t gained = (uint64_t)policy_above(policy_free(of->heap), before) * of->sizes->words;
    uint32_t visits = policy_visits(of);
    uint64_t rest = (moved.first + 32 * g1_queued(of->heap).first) / 4;
    if (gained < visits) of->policy->visits = policy_least(policy_within((uint64_t)2 * visits), policy_within((uint64_t)16 * policy_cards(of)));
    else if (gained / 4 >= visits) of->policy->visits = visits / 2;
    of->policy->rest = rest < gained / 2 ? rest : gained / 2;
}
/* A compaction of a region of words. Answers whether the highest ordinary region is lower then. */
static inline int policy_compact(policy_of *of)
{
    uint32_t end = of->ordinary_end(of->heap);
    of->policy->compactions++, of->policy->compacted += g1_compact(of->heap, of->sizes->words).first;
    return of->ordinary_end(of->heap) < end;
}
/* A compaction with no budget. Answers whether a run moved. */
static inline int policy_slide(policy_of *of)
{
    g1_answer moved = g1_compact(of->heap, UINT32_MAX);
    of->policy->compactions++, of->policy->compacted += moved.first;
    return moved.second != 0;
}
static inline void policy_remark(policy_of *of)
{
    g1_policy *policy = of->policy;
    uint64_t objects = g1_remark(of->heap).first;
    policy->marked = policy->looked > 2 * objects ? policy->looked : 2 * objects;
    policy->cycles++, policy->scanned += objects;
}
static inline void policy_plan_young(policy_of *of, uint32_t free, uint32_t span)
{
    uint32_t way = policy_above(free, of->policy->begin_at) / 2;
    of->policy->young = 0;
    of->policy->span = policy_least(way, policy_most(span, policy_regions(of->sizes, of->policy->young_words)));
    of->policy->young_at = way <= policy_in_play(of->policy, of->sizes) / 64 ? 0 : free - of->policy->span;
}
/* Sets how many regions are in play: where 40 to 45 percent of them live they stay, and up to 65 they become more by a third of what is
   missing to so many that 40 percent do, at least so many that 55 do; else so many that 40 percent do. */
static inline void policy_plan_size(policy_of *of, uint64_t live)
{
    g1_policy *policy = of->policy;
    uint64_t all = live / of->sizes->words, full = (all < of->sizes->regions ? all : of->sizes->regions) + 1;
    uint64_t now = policy_in_play(policy, of->sizes), aim = full * 5 / 2, apt = now;
    if (now * 2 > full * 5 || now * 13 < full * 20) apt = aim;
    else if (now * 9 < full * 20) apt = now + (aim - now) / 3 > full * 20 / 11 ? now + (aim - now) / 3 : full * 20 / 11;
    apt = policy_least(of->sizes->regions, policy_most(policy->least, (uint32_t)apt));
    policy->held = of->sizes->regions - (uint32_t)apt;
    policy->most = policy_most(policy->most, (uint32_t)apt), policy->idle = apt <= policy->most / 2;
}
/* Looks: as many as a cycle takes that marks and clears as much as the last one, and half as many more for marking. */
static inline uint64_t policy_cycle_looks(const g1_policy *policy)
{
    return policy_within(policy->marked) * 3ull / 2 / policy_most(policy->mark_words, 1) + policy->cleared;
}
/* Regions: so many are free where a quarter of those in play that are free now is used up, or as many as are borrowed. */
static inline uint32_t policy_spent_to(const g1_policy *policy, const g1_sizes *sizes, uint32_t free)
{
    uint32_t most = policy_free_in_play(policy, free);
    return policy_above(free, policy_most(policy_borrowed(policy, sizes, free), most - (uint32_t)((uint64_t)3 * most / 4)));
}
/* After a pause that follows a cycle: the next one begins as early as it must to end before the reserve is reached. */
static inline void policy_plan_next(policy_of *of, uint32_t free)
{
    uint32_t due = policy_within(policy_kept(of->policy, of->sizes) + policy_cycle_looks(of->policy));
    uint32_t begin_at = policy_least(due, policy_spent_to(of->policy, of->sizes, free));
    of->policy->begin_at = policy_most(of->policy->begin_at, begin_at);
}
static inline void policy_plan_cycle(policy_of *of, uint32_t free)
{
    uint32_t kept = policy_kept(of->policy, of->sizes), room = policy_above(free, kept), needed;
    needed = policy_least(policy_within(policy_cycle_looks(of->policy)), room / 4 * 3);
    of->policy->wanted = 0;
    of->policy->begin_at = room < 2 ? policy_above(free, policy_most(1, policy_borrowed(of->policy, of->sizes, free)))
        : policy_within((uint64_t)kept + policy_most(policy_least(room / 4, policy_in_play(of->policy, of->sizes) / 8), needed));
    policy_plan_young(of, free, of->policy->span);
}
static inline int policy_is_young_due(g1_policy *policy, uint32_t free)
{
    if (policy->young != 0) return 1;
    if (free > policy->young_at) return 0;
    policy->young = policy_most(1, policy->span), policy->gained = 0, policy->paid = 0;
    return 1;
}
static inline void policy_pause_young(policy_of *of)
{
    g1_policy *policy = of->policy;
    uint32_t before = policy_free(of->heap), after, was;
    uint32_t words = policy->pause_words, cards = policy_visits(of);
    g1_answer moved = policy_moved(of, policy->cycles != 0 ? g1_young(of->heap, words, cards) : g1_pause_within(of->heap, words, cards));
    after = policy_free(of->heap);
    policy_note_pause(of, before, moved);
    policy->gained += policy_above(after, before), policy->paid += moved.first;
    uint64_t worth = (uint64_t)policy->gained * of->sizes->words;
    int is_cut_short = (uint64_t)2 * policy->pause_words < (uint64_t)before * of->sizes->words;
    if (moved.second != 0 && moved.second < policy->young && policy->paid <= worth && is_cut_short) {
        policy->young -= moved.second;
        return;
    }
    was = policy->span;
    policy_plan_young(of, after, policy->paid > worth / 8 ? policy_within((uint64_t)4 * was) : policy->paid <= worth / 32 ? was / 2 : was);
    if (policy->paid > worth && (policy->span <= was || policy->cycles != 0)) policy->young_at = 0;
}
/* Reclaims what is dead, after marking and clearing. Evacuation is due then. */
static inline void policy_reclaim(policy_of *of)
{
    g1_policy *policy = of->policy;
    uint64_t all, live;
    uint32_t most, free;
    g1_cleanup(of->heap);
    free = policy_free(of->heap), live = g1_live_words(of->heap).first;
    policy_plan_size(of, live > policy->asked ? live - policy->asked : 0);
    all = (uint64_t)policy_in_play(policy, of->sizes) * of->sizes->words;
    most = (uint32_t)((all > live ? all - live : 0) / of->sizes->words);
    policy->wanted = policy_most(1, policy_most(most - most / 4, policy_within((uint64_t)2 * policy_reserve(policy, of->sizes))));
    policy->wanted = policy_within((uint64_t)policy->wanted + policy->held);
    policy->begin_at = policy_least(policy->begin_at, policy_spent_to(policy, of->sizes, free));
    policy->visits /= 2, policy->cleared = policy->clears, policy->clears = 0;
}
static inline void policy_end(policy_of *of)
{
    policy_remark(of);
    policy_reclaim(of);
}
/* One pause of so many words at most. Answers whether it paid. */
static inline int policy_evacuate_some(policy_of *of, uint32_t *left, int is_within)
{
    g1_policy *policy = of->policy;
    uint32_t before = policy_free(of->heap), after;
    int is_cut_short;
    g1_answer moved;
    uint64_t words = of->sizes->words, live, used, more, all, budget, copied;
    if (policy->wanted == 0 || *left == 0) return 0;
    if (before >= policy->wanted) {
        policy_plan_cycle(of, before);
        return 0;
    }
    live = g1_live_words(of->heap).first, used = (of->sizes->regions - before) * words;
    more = policy_above(policy->wanted, before) * words;
    all = live != 0 && more > UINT64_MAX / live ? UINT64_MAX : more * live;
    budget = used <= live ? *left : all / (used - live);
    budget = budget < *left ? budget : *left;
    is_cut_short = budget == *left && *left < policy->pause_words;
    if (is_within) {
        moved = policy_moved(of, g1_pause_within(of->heap, (uint32_t)budget, policy_visits(of)));
        is_cut_short |= (moved.second == 0 || moved.first < budget / 2) && policy_visits(of) < policy_cards(of);
        policy_note_pause(of, before, moved);
    } else moved = policy_pause(of, (uint32_t)budget);
    copied = moved.first, after = policy_free(of->heap);
    *left = copied < *left ? *left - (uint32_t)copied : 0;
    policy_plan_next(of, after);
    if (after > before && after < policy->wanted && (after <= policy->reserve || copied <= 4 * (after - before) * words)) return 1;
    if (!is_cut_short || after >= policy->wanted) policy_plan_cycle(of, after);
    return 0;
}
static inline void policy_evacuate(policy_of *of)
{
    uint32_t left = of->policy->pause_words;
    while (policy_evacuate_some(of, &left, 0)) {}
}
/* Begins a cycle, if one is due. Answers whether it is. */
static inline int policy_begin(policy_of *of)
{
    g1_policy *policy = of->policy;
    uint32_t free = policy_free(of->heap);
    uint64_t words, pace;
    uint64_t most = (uint64_t)policy->cycle_words * policy_in_play(policy, of->sizes) / of->sizes->regions;
    if (free > policy->begin_at && policy->asked < most) return 0;
    words = policy->cycles == 0 ? g1_used_words(of->heap).first / 2 : policy->marked;
    pace = 64 + policy_within(words) * 3ull / 2 / policy_most(1, policy_above(free, policy_kept(policy, of->sizes)));
    policy->pace = pace < policy->mark_words ? (uint32_t)pace : policy->mark_words, policy->asked = 0, policy->wanted = 0;
    policy->looked = 0, policy->marked = words;
    g1_begin(of->heap);
    if (free <= policy->reserve) policy_end(of);
    return 1;
}
/* How many objects with weak slots are cleared at a look: more where few regions are free above the reserve. */
static inline uint32_t policy_spend_clears(policy_of *of, uint32_t free)
{
    g1_policy *policy = of->policy;
    uint32_t room = policy_most(1, policy_above(free, policy_kept(policy, of->sizes)));
    uint32_t looks = 1 + policy_least(3, policy_above(policy->cleared, policy->clears) / room);
    policy->clears = policy_within((uint64_t)policy->clears + looks);
    return policy_within((uint64_t)policy->clear_objects * looks);
}
static inline void policy_clear(policy_of *of)
{
    g1_clear(of->heap, policy_spend_clears(of, policy_free(of->heap)));
    if (g1_clearing(of->heap).first == 0) policy_reclaim(of);
}
/* Below the reserve, if that is long and a quarter of it is left: clears 16 times as many. Answers whether some are left. */
static inline int policy_clears_on(policy_of *of)
{
    g1_policy *policy = of->policy;
    if (policy_free(of->heap) <= (policy->reserve < 16 ? policy->reserve : policy->reserve / 4)) return 0;
    g1_clear(of->heap, policy_within((uint64_t)policy->clear_objects * 16));
    if (g1_clearing(of->heap).first == 0) return 0;
    policy->clears = policy_within((uint64_t)policy->clears + 16);
    return 1;
}
/* Words that marking looks at: more where those in play are used up, or few regions are free above the reserve. */
static inline uint32_t policy_spend_marks(policy_of *of)
{
    g1_policy *policy = of->policy;
    uint32_t free = policy_free(of->heap), room = policy_most(1, policy_above(free, policy->reserve)), words, pace = policy->mark_words;
    uint64_t left = policy->marked > policy->looked ? policy->marked - policy->looked : 0;
    uint64_t due = policy_within(left > policy->marked / 16 ? left : policy->marked / 16) * 5ull / 4 / room;
    words = policy_least(policy_within(due), policy_within((uint64_t)16 * policy->mark_words));
    if (free > policy_kept(policy, of->sizes)) pace = policy_least(pace, policy->pace);
    words = policy_most(pace, words);
    policy->looked += words;
    return words;
}
static inline void policy_mark(policy_of *of)
{
    g1_mark(of->heap, policy_spend_marks(of));
    if (policy_free(of->heap) <= of->policy->reserve) policy_end(of);
    else if (g1_grey(of->heap).first == 0) policy_remark(of);
}
/* Refines what is queued beyond half of the cards that may be left, once they are more. Answers whether that is enough for a look. */
static inline int policy_refine(policy_of *of)
{
    g1_policy *policy = of->policy;
    uint64_t queued = g1_queued(of->heap).first, cards = queued - policy->cards_left / 2;
    if (queued <= policy->cards_left) return 0;
    g1_refine(of->heap, (uint32_t)cards);
    return policy->last != 1 && cards > policy->cards_left;
}
/* All that is due, where few regions are free. */
static inline void policy_hurry(policy_of *of)
{
    int is_young_due;
    if (g1_clearing(of->heap).first == 1) {
        if (policy_clears_on(of)) return;
        policy_reclaim(of);
    } else {
        policy_refine(of);
        is_young_due = policy_is_young_due(of->policy, policy_free(of->heap));
        if (is_young_due) policy_pause_young(of);
        if (g1_marking(of->heap).first == 1) policy_mark(of);
        else policy_begin(of);
        if (is_young_due) return;
    }
    policy_evacuate(of);
}
/* What a look did: 1 refined alone, 2 evacuated new regions, 0 else. */
static inline uint32_t policy_work(policy_of *of)
{
    g1_policy *policy = of->policy;
    uint32_t free = policy_free(of->heap), left = policy->pause_words;
    uint32_t reserve = policy_within((uint64_t)2 * policy_reserve(policy, of->sizes));
    int rests = policy->rest != 0
        && free > policy_within((uint64_t)policy->held + policy_most(reserve, policy_free_in_play(policy, policy->wanted) / 3));
    if (policy_refine(of)) return 1;
    if (g1_clearing(of->heap).first == 1) {
        policy_clear(of);
        return 0;
    }
    if (policy->last != 2 && !rests && policy_is_young_due(policy, free)) {
        policy_pause_young(of);
        return 2;
    }
    if (g1_marking(of->heap).first == 1) policy_mark(of);
    else if (!policy_begin(of) && !rests) policy_evacuate_some(of, &left, 1);
    return 0;
}
static inline void policy_due(policy_of *of)
{
    if (policy_free(of->heap) <= of->policy->reserve) policy_hurry(of);
    else of->policy->last = policy_work(of);
}
static inline int policy_left_so(policy_of *of)
{
    g1_policy *policy = of->policy;
    return policy_free(of->heap) == policy->packed_free && g1_live_words(of->heap).first == policy->packed_live
        && of->next_name(of->heap) == policy->packed_next;
}
/* Whether pauses have nothing to gain. */
static inline int policy_packed(policy_of *of)
{
    uint64_t bounds = 0, regions = of->ordinary(of->heap, &bounds), words = regions * of->sizes->words;
    if (words >= 2 * bounds && regions >= 2) return 0;
    return words < bounds + of->sizes->words || policy_left_so(of);
}
/* Pauses for as long as each frees a region; to the end, or while they have something to gain. */
static inline void policy_pause_all(policy_of *of, int to_end)
{
    for (uint32_t before, free = policy_free(of->heap); free < of->sizes->regions && (to_end || !policy_packed(of));) {
        before = free, policy_pause(of, UINT32_MAX), free = policy_free(of->heap);
        if (free <= before) return;
    }
}
/* What a whole collection left. */
static inline void policy_note_packed(policy_of *of)
{
    of->policy->packed_free = policy_free(of->heap), of->policy->packed_live = g1_live_words(of->heap).first;
    of->policy->packed_next = of->next_name(of->heap);
    policy_plan_size(of, of->policy->packed_live);
    policy_plan_cycle(of, of->policy->packed_free);
}
/* A cycle of marking, in which no mutator takes a step. */
static inline void policy_mark_all(policy_of *of)
{
    if (g1_marking(of->heap).first == 1) policy_remark(of);
    g1_begin(of->heap);
    policy_remark(of);
    g1_cleanup(of->heap);
}
static inline void policy_whole(policy_of *of)
{
    policy_mark_all(of);
    policy_pause_all(of, 0);
    policy_note_packed(of);
}
/* The same, two cycles more where half of the regions are free, pauses for as long as each frees a region, and compactions until none moves
   anything. */
static inline void policy_down(policy_of *of)
{
    policy_whole(of);
    if (policy_free(of->heap) >= of->sizes->regions / 2) policy_mark_all(of), policy_mark_all(of);
    policy_pause_all(of, 1);
    policy_note_packed(of);
    of->policy->most = policy_in_play(of->policy, of->sizes), of->policy->idle = 0;
    while (policy_compact(of)) {}
    for (uint32_t moves = 0; moves < of->sizes->regions && policy_slide(of);) moves++;
}
static inline int policy_spared(policy_of *of, uint32_t mutator, uint64_t size)
{
    uint32_t count = (uint32_t)((size + of->sizes->words - 1) / of->sizes->words), free = policy_free(of->heap);
    if (2 * size <= of->sizes->words) return free > 2 || of->fits_open(of->heap, mutator, (uint32_t)size);
    return count + 2 <= free && of->has_run(of->heap, count);
}
/* Whether an object that the heap would make may be made: where it may not, it is refused as Full. */
static inline int policy_room(policy_of *of, uint32_t mutator, uint64_t size)
{
    g1_policy *policy = of->policy;
    uint64_t taken = 2 * size <= of->sizes->words ? 1 : (size + of->sizes->words - 1) / of->sizes->words;
    int due = size >= policy->left;
    if (!due) {
        policy->left -= (uint32_t)size;
        if (size <= of->sizes->words / 2 && policy_free(of->heap) > 2) return 1;
    }
    if (size > (uint64_t)of->sizes->regions * of->sizes->words || !of->has_name(of->heap)) return 1;
    if (due) {
        policy->asked += policy->look + size;
        policy->rest = policy->rest > policy->look + size ? policy->rest - (policy->look + size) : 0;
        policy->look = policy->left = of->sizes->words / 2;
        policy_due(of);
    }
    if (policy_spared(of, mutator, size)) return 1;
    if (g1_marking(of->heap).first == 1) policy_end(of);
    else if (g1_clearing(of->heap).first == 1) policy_reclaim(of);
    if (policy->wanted != 0) policy_pause_all(of, 0), policy_plan_cycle(of, policy_free(of->heap));
    if (policy_spared(of, mutator, size)) return 1;
    policy_whole(of);
    if (policy_spared(of, mutator, size)) return 1;
    if (2 * size > of->sizes->words) {
        while (policy_compact(of))
            if (policy_spared(of, mutator, size)) return 1;
        for (uint32_t moves = 0; moves < of->sizes->regions; moves++) {
            if (policy_spared(of, mutator, size)) return 1;
            if (!policy_slide(of)) break;
        }
        if (policy_spared(of, mutator, size)) return 1;
    }
    return taken + 2 >= of->sizes->regions;
}

#endif
