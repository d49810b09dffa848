/* The yardstick: see yardstick.h. The section names in the comments are those of document 01; step 4 is
   the one of document 02, and so are the place of a NONE, the starting sets, the rounds
   and "at most k".

   The rules are parsed once, into arrays: a clause into its positions, each with the union of that
   position's sets; an equality into M and its positions, each once; "at most k" into k, its set and its
   positions. A starting set is no rule: it becomes the room that its position has in the first box, wherever
   its field stands. The search then never looks at the file again. Apart from that it goes by the steps as
   they are written. */
#include "yardstick.h"

#include <assert.h>

enum {
    POSITIONS = 64,
    VALUES = 32,
    LONGEST_INPUT = 32768,
    SHORTEST_ANSWER = 64,
    LARGEST_ALLOWANCE = 1000000,
    HEAD = 3,  /* bytes of a tag and a length */
    ATOM = 5   /* bytes of an atom, of a starting set's content, and of a count and its set */
};

/* the replies of 01's table, and of 02 */
enum {
    PLAN = 0,
    NONE = 1,
    UNDECIDED = 2,
    INPUT_TOO_LONG = 10,
    ANSWER_TOO_SHORT = 11,
    ALLOWANCE_TOO_LARGE = 12,
    BYTES_MISSING = 13,
    NO_HEADER = 14,
    SECOND_HEADER = 15,
    UNKNOWN_TAG = 16,
    WRONG_LENGTH = 17,
    WRONG_LIMITS = 18,
    WRONG_POSITION = 19,
    WRONG_SET = 20,
    EMPTY_START = 26,
    SECOND_START = 27,
    NAMED_TWICE = 36
};

/* ---- the rules, parsed ---- */

/* a position of a rule, counted from 0; in a clause, with the union of its sets there */
struct part {
    uint32_t position;
    uint32_t set;
};

enum kind { CLAUSE, EQUALITY, AT_MOST };

struct rule {
    enum kind kind;
    uint32_t most;  /* k of "at most k" */
    uint32_t set;   /* M of an equality, and the set of "at most k" */
    uint32_t first; /* its parts are parts[first] up to, not including, parts[end] */
    uint32_t end;
    uint64_t named; /* bit i: position i, counted from 0, has a part */
};

/* The shortest field has 3 bytes, and each part has at least a byte of its own in the file. */
static struct rule rules[LONGEST_INPUT / HEAD];
static uint32_t places[LONGEST_INPUT / HEAD]; /* of each rule, the offset of its field's tag byte */
static struct part parts[LONGEST_INPUT];
static uint32_t rule_count, part_count;
static uint32_t v, n;
static uint32_t starting[POSITIONS]; /* of each position, its starting set: {1..n} where no field gives one */
static uint64_t given;               /* bit i: a field gives the starting set of position i */

static uint32_t four_bytes(const uint8_t *at)
{
    return (uint32_t)at[0] << 24 | (uint32_t)at[1] << 16 | (uint32_t)at[2] << 8 | (uint32_t)at[3];
}

/* the set {1..n} */
static uint32_t full_set(void)
{
    return n == VALUES ? UINT32_MAX : ((uint32_t)1 << n) - 1;
}

/* Parses a clause's bytes to a new rule. Answers 0, or the number of its first fault. */
static int parse_clause(const uint8_t *content, size_t length)
{
    struct rule *rule = &rules[rule_count++];
    uint32_t part_of[POSITIONS]; /* of each position, its part in this clause, counted from 1 */

    for (uint32_t i = 0; i < v; i++)
        part_of[i] = 0;
    rule->kind = CLAUSE;
    rule->most = 0;
    rule->set = 0;
    rule->first = part_count;
    rule->named = 0;
    for (size_t at = 0; at < length; at += ATOM) {
        uint32_t position = content[at];
        uint32_t set = four_bytes(content + at + 1);

        if (position == 0 || position > v)
            return WRONG_POSITION;
        if (set & ~full_set())
            return WRONG_SET;
        position--;
        if (part_of[position]) {
            parts[part_of[position] - 1].set |= set;
        } else {
            parts[part_count].position = position;
            parts[part_count].set = set;
            part_of[position] = ++part_count;
            rule->named |= (uint64_t)1 << position;
        }
    }
    rule->end = part_count;
    return 0;
}

/* Parses an equality's bytes to a new rule. Answers 0, or the number of its first fault. */
static int parse_equality(const uint8_t *content, size_t length)
{
    struct rule *rule = &rules[rule_count++];

    rule->kind = EQUALITY;
    rule->most = 0;
    rule->set = four_bytes(content);
    rule->first = part_count;
    rule->named = 0;
    if (rule->set & ~full_set())
        return WRONG_SET;
    for (size_t at = 4; at < length; at++) {
        uint32_t position = content[at];

        if (position == 0 || position > v)
            return WRONG_POSITION;
        position--;
        if (rule->named >> position & 1)
            continue;
        rule->named |= (uint64_t)1 << position;
        parts[part_count].position = position;
        parts[part_count].set = rule->set;
        part_count++;
    }
    rule->end = part_count;
    return 0;
}

/* Parses the bytes of "at most k", a count, a set and positions, to a new rule. Answers 0, or the number of its
   first fault: the set's comes first, then that of a position out of range, wherever it stands, and one that is
   named twice last. */
static int parse_at_most(const uint8_t *content, size_t length)
{
    struct rule *rule = &rules[rule_count++];
    int twice = 0;

    rule->kind = AT_MOST;
    rule->most = content[0];
    rule->set = four_bytes(content + 1);
    rule->first = part_count;
    rule->named = 0;
    if (rule->set & ~full_set())
        return WRONG_SET;
    for (size_t at = ATOM; at < length; at++) {
        uint32_t position = content[at];

        if (position == 0 || position > v)
            return WRONG_POSITION;
        position--;
        twice |= rule->named >> position & 1;
        rule->named |= (uint64_t)1 << position;
        parts[part_count].position = position;
        parts[part_count].set = rule->set;
        part_count++;
    }
    rule->end = part_count;
    return twice ? NAMED_TWICE : 0;
}

/* Parses a header's bytes: v and n, and every position starts at {1..n}. Answers 0, or the number of its
   fault. */
static int parse_header(const uint8_t *content)
{
    v = content[0];
    n = content[1];
    if (v < 1 || v > POSITIONS || n < 1 || n > VALUES)
        return WRONG_LIMITS;
    given = 0;
    for (uint32_t i = 0; i < v; i++)
        starting[i] = full_set();
    return 0;
}

/* Parses a starting set's bytes, a position and its set. Answers 0, or the number of its first fault. */
static int parse_start(const uint8_t *content)
{
    uint32_t position = content[0];
    uint32_t set = four_bytes(content + 1);

    if (position == 0 || position > v)
        return WRONG_POSITION;
    if (set & ~full_set())
        return WRONG_SET;
    if (set == 0)
        return EMPTY_START;
    position--;
    if (given >> position & 1)
        return SECOND_START;
    given |= (uint64_t)1 << position;
    starting[position] = set;
    return 0;
}

/* Whether a field of this tag may have this length. */
static int length_is_right(int tag, size_t length)
{
    switch (tag) {
    case 1: return length == 2;
    case 2: return length % ATOM == 0;
    case 3: return length >= 4 && length <= 4 + POSITIONS;
    case 4: return length == ATOM;
    default: return length >= ATOM && length <= ATOM + POSITIONS;
    }
}

/* Parses the whole file. Answers 0, or the number of the first fault, with its field at *place. */
static int parse(const uint8_t *input, size_t input_len, uint64_t *place)
{
    rule_count = 0;
    part_count = 0;
    *place = 0;
    if (input_len == 0)
        return NO_HEADER;
    for (size_t at = 0; at < input_len;) {
        size_t left = input_len - at;
        const uint8_t *content = input + at + HEAD;
        size_t length;
        int tag, fault;

        *place = at;
        if (left < HEAD)
            return BYTES_MISSING;
        tag = input[at];
        if (at == 0 && tag != 1)
            return NO_HEADER;
        if (at != 0 && tag == 1)
            return SECOND_HEADER;
        if (tag < 1 || tag > 5)
            return UNKNOWN_TAG;
        length = (size_t)input[at + 1] << 8 | input[at + 2];
        if (!length_is_right(tag, length))
            return WRONG_LENGTH;
        if (left - HEAD < length)
            return BYTES_MISSING;
        if (tag != 1 && tag != 4)
            places[rule_count] = (uint32_t)at;
        switch (tag) {
        case 1: fault = parse_header(content); break;
        case 2: fault = parse_clause(content, length); break;
        case 3: fault = parse_equality(content, length); break;
        case 4: fault = parse_start(content); break;
        default: fault = parse_at_most(content, length);
        }
        if (fault)
            return fault;
        at += HEAD + length;
    }
    *place = 0;
    return 0;
}

/* ---- the search, step for step ---- */

struct box {
    uint32_t rooms[POSITIONS];
};

static uint64_t allowed, split_count, dead_end_count;
static uint64_t round_count;          /* the rounds of the first box */
static const struct rule *first_dead; /* in the box last found dead, the rule first found so */
static uint8_t plan[POSITIONS];

#ifdef YARDSTICK_COUNTS
struct yardstick_counts yardstick_counts;
static uint64_t most_in_call, last_in_call; /* rounds: the most that a box of this call took, and its last box */
#endif

/* The smallest value of a room that is not empty, as a set of its own. */
static uint32_t smallest_alone(uint32_t room)
{
    return room & -room;
}

/* What became of a box at one rule. */
enum look { UNCHANGED, CUT, DEAD };

/* Step 1 at a clause: no live position is dead; a single one has its room cut down to the union. */
static enum look look_at_clause(const struct rule *rule, struct box *box)
{
    const struct part *live = 0;
    uint32_t *room;

    for (const struct part *part = parts + rule->first; part < parts + rule->end; part++) {
        if (box->rooms[part->position] & part->set) {
            if (live)
                return UNCHANGED; /* a second live position: nothing to cut */
            live = part;
        }
    }
    if (!live)
        return DEAD;
    room = &box->rooms[live->position];
    if (!(*room & ~live->set))
        return UNCHANGED;
    *room &= live->set;
    return CUT;
}

/* Step 1 at an equality: for each position "it is in M", then for each value of M, rising, "one of
   the positions is in that value alone". */
static enum look look_at_equality(const struct rule *rule, struct box *box)
{
    const struct part *from = parts + rule->first, *end = parts + rule->end;
    enum look result = UNCHANGED;

    for (const struct part *part = from; part < end; part++) {
        uint32_t *room = &box->rooms[part->position];

        if (!(*room & rule->set))
            return DEAD;
        if (*room & ~rule->set) {
            *room &= rule->set;
            result = CUT;
        }
    }
    for (uint32_t left = rule->set; left; left &= left - 1) {
        uint32_t value = smallest_alone(left);
        uint32_t *live = 0;
        int several = 0;

        for (const struct part *part = from; part < end; part++) {
            uint32_t *room = &box->rooms[part->position];

            if (*room & value) {
                if (live) {
                    several = 1;
                    break;
                }
                live = room;
            }
        }
        if (!live)
            return DEAD;
        if (!several && *live != value) {
            *live = value;
            result = CUT;
        }
    }
    return result;
}

/* Step 1 at "at most k": more than k rooms inside the set, wide ones among them, is dead; where just k are
   inside, every other room that meets the set is cut down to its values outside. The rooms inside are counted
   before any is cut, and a cut puts no further room inside. */
static enum look look_at_most(const struct rule *rule, struct box *box)
{
    const struct part *from = parts + rule->first, *end = parts + rule->end;
    uint32_t inside = 0, cut = 0;
#ifdef YARDSTICK_COUNTS
    int wide = 0; /* whether a room inside has two or more values */

    for (const struct part *part = from; part < end; part++) {
        uint32_t room = box->rooms[part->position];

        wide |= !(room & ~rule->set) && room != smallest_alone(room);
    }
#endif

    for (const struct part *part = from; part < end; part++)
        inside += !(box->rooms[part->position] & ~rule->set);
    if (inside > rule->most) {
#ifdef YARDSTICK_COUNTS
        yardstick_counts.at_most_dead++;
        yardstick_counts.at_most_dead_wide += (uint64_t)wide;
#endif
        return DEAD;
    }
    if (inside < rule->most)
        return UNCHANGED;
    for (const struct part *part = from; part < end; part++) {
        uint32_t *room = &box->rooms[part->position];

        if ((*room & rule->set) && (*room & ~rule->set)) {
            *room &= ~rule->set;
            cut++;
        }
    }
#ifdef YARDSTICK_COUNTS
    yardstick_counts.at_most_cut += cut > 0;
    yardstick_counts.at_most_cut_several += cut > 1;
    yardstick_counts.at_most_cut_wide += cut > 0 && wide;
#endif
    return cut ? CUT : UNCHANGED;
}

/* Step 1 at any rule. */
static enum look look_at(const struct rule *rule, struct box *box)
{
    switch (rule->kind) {
    case CLAUSE: return look_at_clause(rule, box);
    case EQUALITY: return look_at_equality(rule, box);
    default: return look_at_most(rule, box);
    }
}

/* Step 1: rounds over all fields in file order, each room cut at once, until a round changes nothing. A
   starting set changes nothing and is never dead, so the rules are all that a round goes through.
   Answers whether the box is alive; where it is not, first_dead is the rule first found dead. A round counts
   when it starts, so the last one does too; the box is the first one as long as there is no split. */
static int shrink(struct box *box)
{
    int changed;
#ifdef YARDSTICK_COUNTS
    uint64_t rounds = 0;
    int cut = 0;
#endif

    do {
        changed = 0;
        round_count += split_count == 0;
#ifdef YARDSTICK_COUNTS
        last_in_call = ++rounds;
        if (rounds > most_in_call)
            most_in_call = rounds;
#endif
        for (const struct rule *rule = rules; rule < rules + rule_count; rule++) {
            enum look look = look_at(rule, box);

            if (look == DEAD) {
#ifdef YARDSTICK_COUNTS
                yardstick_counts.dead_after_cut += cut || changed;
                if (split_count == 0) {
                    yardstick_counts.places++;
                    yardstick_counts.places_later += rounds > 1;
                    yardstick_counts.places_equality += rule->kind == EQUALITY;
                    yardstick_counts.places_at_most += rule->kind == AT_MOST;
                }
#endif
                first_dead = rule;
                return 0;
            }
            if (look == CUT)
                changed = 1;
        }
#ifdef YARDSTICK_COUNTS
        cut |= changed;
#endif
    } while (changed);
    return 1;
}

/* Step 2 at a clause: some position's room lies inside its union. */
static int clause_settled(const struct rule *rule, const struct box *box)
{
    for (const struct part *part = parts + rule->first; part < parts + rule->end; part++)
        if (!(box->rooms[part->position] & ~part->set))
            return 1;
    return 0;
}

/* Step 2 at an equality: every room lies inside M, and each value of M is alone in some room. */
static int equality_settled(const struct rule *rule, const struct box *box)
{
    uint32_t alone = 0;

    for (const struct part *part = parts + rule->first; part < parts + rule->end; part++) {
        uint32_t room = box->rooms[part->position];

        if (room & ~rule->set)
            return 0;
        if (room == smallest_alone(room))
            alone |= room;
    }
    return alone == rule->set;
}

/* Step 2 at "at most k": at most k rooms meet the set. */
static int at_most_settled(const struct rule *rule, const struct box *box)
{
    uint32_t meeting = 0;

    for (const struct part *part = parts + rule->first; part < parts + rule->end; part++)
        meeting += (box->rooms[part->position] & rule->set) != 0;
    return meeting <= rule->most;
}

/* Step 2 at any rule. */
static int settled(const struct rule *rule, const struct box *box)
{
    switch (rule->kind) {
    case CLAUSE: return clause_settled(rule, box);
    case EQUALITY: return equality_settled(rule, box);
    default: return at_most_settled(rule, box);
    }
}

/* Step 2: the first rule that is not settled; the end of the rules where the box is settled. */
static const struct rule *first_unsettled(const struct box *box)
{
    const struct rule *rule = rules;

    while (rule < rules + rule_count && settled(rule, box))
        rule++;
    return rule;
}

/* Step 4 at a clause: the positions that are live in it, as bits; none where it is settled. */
static uint64_t clause_live(const struct rule *rule, const struct box *box)
{
    uint64_t live = 0;

    for (const struct part *part = parts + rule->first; part < parts + rule->end; part++) {
        uint32_t room = box->rooms[part->position];

        if (!(room & ~part->set))
            return 0;
        if (room & part->set)
            live |= (uint64_t)1 << part->position;
    }
    return live;
}

/* Step 4 at an equality: the positions that are live in some clause of it that is not settled, as bits.
   The clause of a value is settled where the value is alone in some room; "it is in M", where the room
   lies inside M. */
static uint64_t equality_live(const struct rule *rule, const struct box *box)
{
    const struct part *from = parts + rule->first, *end = parts + rule->end;
    uint32_t open = rule->set; /* the values whose clauses are not settled */
    uint64_t live = 0;

    for (const struct part *part = from; part < end; part++) {
        uint32_t room = box->rooms[part->position];

        if (room == smallest_alone(room))
            open &= ~room;
    }
    for (const struct part *part = from; part < end; part++) {
        uint32_t room = box->rooms[part->position];

        if ((room & open) || ((room & rule->set) && (room & ~rule->set)))
            live |= (uint64_t)1 << part->position;
    }
    return live;
}

/* Step 4 at "at most k": the positions whose rooms meet the set, as bits, those inside it among them; none where
   it is settled. */
static uint64_t at_most_live(const struct rule *rule, const struct box *box)
{
    uint64_t live = 0;

    for (const struct part *part = parts + rule->first; part < parts + rule->end; part++)
        if (box->rooms[part->position] & rule->set)
            live |= (uint64_t)1 << part->position;
    return (uint32_t)__builtin_popcountll(live) <= rule->most ? 0 : live;
}

/* Step 4 at any rule. */
static uint64_t live_in(const struct rule *rule, const struct box *box)
{
    switch (rule->kind) {
    case CLAUSE: return clause_live(rule, box);
    case EQUALITY: return equality_live(rule, box);
    default: return at_most_live(rule, box);
    }
}

/* Step 4: the lowest position with two or more values that is live in some clause, or some "at most k", that is
   not settled; or v, where there is none.
   The rules before `rule` are settled. A rule that names no position lower than the one found so far
   is passed over, and the scan ends where no lower one is left. */
static uint32_t lowest_to_split(const struct rule *rule, const struct box *box)
{
    uint32_t lowest = v;
    uint64_t wide = 0; /* bit i: position i has two or more values and is lower than `lowest` */

    for (uint32_t i = 0; i < v; i++)
        if (box->rooms[i] != smallest_alone(box->rooms[i]))
            wide |= (uint64_t)1 << i;
    for (; wide && rule < rules + rule_count; rule++) {
        uint64_t live;

        if (!(rule->named & wide))
            continue;
        live = wide & live_in(rule, box);
        if (live) {
            lowest = (uint32_t)__builtin_ctzll(live);
            wide &= ((uint64_t)1 << lowest) - 1;
        }
    }
    return lowest;
}

#ifdef YARDSTICK_COUNTS
/* Counts a split, by the positions of two or more values that are lower than the one split. */
static void count_passed_over(const struct box *box, uint32_t split)
{
    uint64_t passed = 0, named = 0, live = 0, named_in_open = 0, live_in_open = 0;

    for (uint32_t i = 0; i < split; i++)
        if (box->rooms[i] != smallest_alone(box->rooms[i]))
            passed |= (uint64_t)1 << i;
    for (const struct rule *rule = rules; rule < rules + rule_count; rule++) {
        int open = !settled(rule, box);

        named |= rule->named;
        if (open)
            named_in_open |= rule->named;
        for (const struct part *part = parts + rule->first; part < parts + rule->end; part++)
            if (box->rooms[part->position] & part->set) {
                live |= (uint64_t)1 << part->position;
                if (open)
                    live_in_open |= (uint64_t)1 << part->position;
            }
    }
    yardstick_counts.splits++;
    yardstick_counts.passed_over += passed != 0;
    yardstick_counts.passed_unnamed += (passed & ~named) != 0;
    yardstick_counts.passed_live += (passed & live & ~named_in_open) != 0;
    yardstick_counts.passed_named += (passed & named_in_open & ~live_in_open) != 0;
    yardstick_counts.passed_equality += (passed & live_in_open) != 0;
}
#endif

#ifdef YARDSTICK_COUNTS
/* Counts a split, by what it meets at each "at most k" that is not settled. */
static void count_at_most(const struct box *box, uint32_t split)
{
    int inside = 0;
    uint64_t live = 0, single = 0;

    for (uint32_t i = 0; i < split; i++)
        if (box->rooms[i] == smallest_alone(box->rooms[i]))
            single |= (uint64_t)1 << i;
    for (const struct rule *rule = rules; rule < rules + rule_count; rule++)
        if (rule->kind == AT_MOST && !settled(rule, box)) {
            inside |= (rule->named >> split & 1) && !(box->rooms[split] & ~rule->set);
            live |= at_most_live(rule, box);
        }
    yardstick_counts.splits_inside += (uint64_t)inside;
    yardstick_counts.live_alone += (live & single) != 0;
}
#endif

/* Steps 1 to 4 for a box. Answers PLAN (with the values in `plan`), NONE or UNDECIDED. */
static int search(struct box box)
{
    const struct rule *unsettled;
    struct box first_half;
    uint32_t split;
    int answer;
#ifdef YARDSTICK_COUNTS
    struct box before = box;
#endif

    if (!shrink(&box)) {
        dead_end_count++;
        return NONE;
    }
    unsettled = first_unsettled(&box);
    if (unsettled == rules + rule_count) {
        for (uint32_t i = 0; i < v; i++)
            plan[i] = (uint8_t)(1 + __builtin_ctz(box.rooms[i]));
        return PLAN;
    }
    split = lowest_to_split(unsettled, &box);
    assert(split < v); /* a box that is neither dead nor settled has one */
    if (split_count == allowed)
        return UNDECIDED;
    split_count++;
#ifdef YARDSTICK_COUNTS
    if (smallest_alone(before.rooms[split]) != smallest_alone(box.rooms[split]))
        yardstick_counts.splits_after_cut++;
    count_passed_over(&box, split);
    count_at_most(&box, split);
#endif
    first_half = box;
    first_half.rooms[split] = smallest_alone(box.rooms[split]);
    answer = search(first_half);
    if (answer != NONE)
        return answer;
    box.rooms[split] &= ~smallest_alone(box.rooms[split]);
    return search(box);
}

void yardstick_plan(const uint8_t *input, size_t input_len, uint8_t *answer, size_t answer_len,
                    uint64_t allowance, uint64_t *number, uint64_t *place, uint64_t *splits,
                    uint64_t *dead_ends, uint64_t *rounds)
{
    struct box start;

    *place = 0;
    *splits = 0;
    *dead_ends = 0;
    *rounds = 0;
    if (input_len > LONGEST_INPUT) {
        *number = INPUT_TOO_LONG;
        return;
    }
    if (answer_len < SHORTEST_ANSWER) {
        *number = ANSWER_TOO_SHORT;
        return;
    }
    if (allowance > LARGEST_ALLOWANCE) {
        *number = ALLOWANCE_TOO_LARGE;
        return;
    }
    *number = (uint64_t)parse(input, input_len, place);
    if (*number != 0)
        return;
    allowed = allowance;
    split_count = 0;
    dead_end_count = 0;
    round_count = 0;
#ifdef YARDSTICK_COUNTS
    most_in_call = 0;
#endif
    for (uint32_t i = 0; i < POSITIONS; i++)
        start.rooms[i] = i < v ? starting[i] : 0;
    *number = (uint64_t)search(start);
    *splits = split_count;
    *dead_ends = dead_end_count;
    *rounds = round_count;
#ifdef YARDSTICK_COUNTS
    if (most_in_call > yardstick_counts.most_rounds)
        yardstick_counts.most_rounds = most_in_call;
    yardstick_counts.later_took_more += most_in_call > round_count;
    yardstick_counts.last_took_others += last_in_call != round_count;
#endif
    if (*number == NONE && split_count == 0) /* the box found dead is the first one: its place is told */
        *place = places[first_dead - rules];
    if (*number == PLAN)
        for (uint32_t i = 0; i < v; i++)
            answer[i] = plan[i];
}

uint64_t yardstick_rounds_most(const uint8_t *input, size_t input_len)
{
    uint64_t place, most = 1;

    if (input_len > LONGEST_INPUT || parse(input, input_len, &place) != 0)
        return 0;
    for (uint32_t i = 0; i < v; i++) /* every room starts with its starting set */
        most += (uint32_t)__builtin_popcount(starting[i]) - 1;
    return most;
}
