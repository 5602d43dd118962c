/* Plays many games of one story beside each other, clones of one another and games from snapshots, looks into them,
 * takes them step by step, and changes clones, all at random: each game must show in each turn what a game alone shows
 * there, and stand as that one stands.
 *
 *     clones STORY CALLS <LINES
 *
 * The lines of standard input are the first play's. Requests for memory are refused now and then; the call is then made
 * again. It writes how many calls and games there were, and its status is 0 where all was as it should be and no block
 * is left in the end. */
#include <stdio.h>
#include <stdlib.h>
#include <string.h>

#include "zkit.h"
#include "zkit_heap.h"

enum { LONGEST_STORY = 524289, MOST = 1 << 20, TURNS = 4096, GAMES = 24, BUFFER = 65536 };

static uint8_t story[LONGEST_STORY], lines[MOST], buffer[BUFFER], kept[MOST];
static zkit_shared *opened;
static size_t story_length, lines_length;
static long calls, games_opened;

/* What a game alone has come to at each read: the hashes of the text of that turn and of dynamic memory, and where it
 * stands. */
static struct stand {
    uint64_t text, memory;
    zkit_place place;
    size_t next; /* where its next line begins */
} stands[TURNS];
static size_t turns;

/* The games that are open, each at the read of a number. */
static struct {
    zkit *game;
    size_t turn;
} games[GAMES];
static size_t open_games;

/* ---- the heap: it counts its blocks, and refuses a request now and then */

static long blocks;
static int is_poor;
static uint64_t state = 88172645463325252u;

static uint32_t any(uint32_t below) {
    state ^= state << 13;
    state ^= state >> 7;
    state ^= state << 17;
    return (uint32_t)(state >> 32) % below;
}

static struct rattle_block block_at(void *at) {
    static unsigned char nothing;
    struct rattle_block block = {at != NULL, at ? at : &nothing};
    return block;
}

struct rattle_block rattle_alloc(size_t size, size_t alignment) {
    struct rattle_block block = block_at(is_poor && any(64) == 0 ? NULL : malloc(size > 0 ? size : alignment));
    blocks += block.is_there;
    return block;
}

struct rattle_block rattle_realloc(void *block, size_t kept, size_t size, size_t alignment) {
    (void)kept;
    return block_at(is_poor && any(64) == 0 ? NULL : realloc(block, size > 0 ? size : alignment));
}

void rattle_dealloc(void *block) {
    blocks--;
    free(block);
}

/* ---- plays */

static void fail(const char *what) {
    fprintf(stderr, "clones: after %ld calls: %s\n", calls, what);
    exit(1);
}

static uint64_t hash_on(uint64_t hash, const uint8_t *bytes, size_t length) {
    for (size_t i = 0; i < length; i++)
        hash = (hash ^ bytes[i]) * 1099511628211u;
    return hash;
}

/* Takes one instruction, which is told with its address. */
static uint32_t step(zkit *game) {
    zkit_place place = {sizeof place, 0, 0, 0, 0, 0, 0, 0};
    char line[64] = "", address[8] = "";
    zkit_place_of(game, &place);
    uint32_t asked = zkit_step(game);
    snprintf(address, sizeof address, "%05x", (unsigned)place.address);
    if (zkit_listing(game, (uint8_t *)line, sizeof line - 1) > 0 && strncmp(line, address, 5) != 0)
        fail("another instruction is told than that which comes next");
    while (zkit_listing(game, buffer, BUFFER) > 0)
        ;
    return asked;
}

/* Runs a game up to its next read or its stop, and gives the hash of its text. */
static uint32_t run(zkit *game, uint64_t *text) {
    uint32_t asked;
    size_t count;
    *text = 14695981039346656037u;
    do {
        asked = any(8) ? zkit_turn_for(game, 100 + any(100000)) : step(game);
        if (zkit_waiting_text(game) > 0 && asked != ZKIT_AWAITS_ROOM && any(2))
            continue;
        while ((count = zkit_text(game, buffer, 1 + any(BUFFER))) > 0)
            *text = hash_on(*text, buffer, count);
    } while (asked == ZKIT_AWAITS_TIME || asked == ZKIT_AWAITS_MEMORY || asked == ZKIT_AWAITS_ROOM);
    while ((count = zkit_text(game, buffer, BUFFER)) > 0)
        *text = hash_on(*text, buffer, count);
    return asked;
}

static uint32_t dynamic_length(void) {
    return (uint32_t)story[14] << 8 | story[15];
}

static void look(zkit *game, struct stand *stand) {
    stand->memory = zkit_hash(game, 0, dynamic_length());
    stand->place.size = sizeof stand->place;
    zkit_place_of(game, &stand->place);
}

static size_t line_end(size_t from) {
    while (from < lines_length && lines[from] != '\n')
        from++;
    return from;
}

/* Answers the read of a number by the line of the first play; says whether it awaits a line, and one is left. */
static int answer(zkit *game, size_t turn) {
    size_t from = stands[turn].next, end = line_end(from);
    return from < lines_length && zkit_line(game, lines + from, end - from) == ZKIT_DONE;
}

/* Plays the lines once, and notes how the game stands at each read. */
static void play_alone(void) {
    zkit *game = zkit_open(story, story_length, NULL, NULL);
    if (!game)
        fail("the story is not opened");
    for (size_t next = 0; turns < TURNS; next = line_end(next) + 1) {
        struct stand *stand = &stands[turns];
        if (run(game, &stand->text) != ZKIT_AWAITS_LINE)
            break;
        look(game, stand);
        stand->next = next;
        turns++;
        if (!answer(game, turns - 1))
            break;
    }
    zkit_close(game);
}

/* ---- calls at random */

static void add(zkit *game, size_t turn) {
    games[open_games].game = game;
    games[open_games++].turn = turn;
    games_opened++;
}

static void drop(size_t i) {
    zkit_close(games[i].game);
    games[i] = games[--open_games];
}

/* A game stands as the one alone does at that read, apart from how many instructions its own turns have run. */
static void compare(size_t i) {
    struct stand now, *then = &stands[games[i].turn];
    look(games[i].game, &now);
    if (now.memory != then->memory || now.place.address != then->place.address
        || now.place.routines != then->place.routines || now.place.words != then->place.words
        || now.place.states != then->place.states || now.place.steps != then->place.steps
        || now.place.reads != then->place.reads)
        fail("a game stands otherwise than the one alone");
}

static void begin(void) {
    zkit_options options = {sizeof options, 0, 0, 0, 0, 0, 0, 0, 0, 0, 0, 0};
    uint32_t reason;
    uint64_t text;
    zkit_defaults(&options);
    options.coverage = any(2);
    zkit *game =
        any(2) ? zkit_open(story, story_length, &options, &reason) : zkit_story_game(opened, &options, &reason);
    if (!game && reason != ZKIT_OPEN_NO_MEMORY)
        fail("the story is not opened again");
    if (!game)
        return;
    run(game, &text);
    if (text != stands[0].text)
        fail("the story begins otherwise");
    add(game, 0);
}

static void clone(size_t i) {
    uint32_t reason;
    zkit *game = zkit_clone(games[i].game, &reason);
    if (!game && reason != ZKIT_NO_MEMORY)
        fail("a game that waits has no clone");
    if (!game)
        return;
    if (zkit_waiting_text(game) != 0)
        fail("a clone has text");
    add(game, games[i].turn);
    compare(open_games - 1);
}

/* Goes on from a snapshot of a game. */
static void resume(size_t i) {
    uint32_t reason;
    size_t length;
    uint32_t answered = zkit_snapshot_with_undo(games[i].game, MOST, kept, MOST, &length);
    if (answered != ZKIT_DONE && answered != ZKIT_NO_MEMORY)
        fail("a game that waits has no snapshot");
    if (answered != ZKIT_DONE)
        return;
    zkit *game = zkit_story_resume(opened, kept, length, NULL, &reason);
    if (!game && reason != ZKIT_OPEN_NO_MEMORY)
        fail("a snapshot is not opened");
    if (!game)
        return;
    add(game, games[i].turn);
    compare(open_games - 1);
}

static uint32_t word_at(const zkit *game, uint32_t address) {
    uint8_t bytes[2] = {0, 0};
    zkit_memory(game, address, bytes, 2);
    return (uint32_t)bytes[0] << 8 | bytes[1];
}

/* Gives a word another value, and then its own again: nothing but its two bytes changes meanwhile. */
static void change_word(zkit *game) {
    uint32_t address = any(dynamic_length() + 2), value = any(65536), before = word_at(game, address);
    uint64_t below = zkit_hash(game, 0, address), whole = zkit_hash(game, 0, (uint32_t)story_length);
    uint64_t above = zkit_hash(game, address + 2, (uint32_t)story_length);
    uint32_t answered = zkit_set_word(game, address, value);
    if (answered != (address + 1 < dynamic_length() ? ZKIT_DONE : ZKIT_NOT_CHANGED))
        fail("a word is changed elsewhere, or not in dynamic memory");
    if (word_at(game, address) != (answered == ZKIT_DONE ? value : before) || zkit_hash(game, 0, address) != below
        || zkit_hash(game, address + 2, (uint32_t)story_length) != above)
        fail("another word was changed");
    if (answered == ZKIT_DONE)
        zkit_set_word(game, address, before);
    if (zkit_hash(game, 0, (uint32_t)story_length) != whole)
        fail("a word that is put back leaves something changed");
}

/* Moves an object: then it is the first child there, and has the sibling that was first before. */
static void move_object(zkit *game) {
    uint32_t object = 1 + any(zkit_objects(game) + 1), parent = any(zkit_objects(game) + 2);
    zkit_object moved = {sizeof moved, 0, 0, 0, 0, 0, {0}}, before = {sizeof before, 0, 0, 0, 0, 0, {0}};
    zkit_object after = {sizeof after, 0, 0, 0, 0, 0, {0}};
    if (object > zkit_objects(game) || parent > zkit_objects(game) || object == parent
        || zkit_object_of(game, object, &moved) != ZKIT_DONE || moved.parent == parent)
        return;
    zkit_object_of(game, parent, &before);
    if (zkit_move_object(game, object, parent) != ZKIT_DONE)
        return;
    zkit_object_of(game, object, &moved);
    zkit_object_of(game, parent, &after);
    if (moved.parent != parent || (parent == 0 && moved.sibling != 0))
        fail("an object was moved elsewhere");
    if (parent != 0 && (after.child != object || moved.sibling != before.child))
        fail("an object is not the first child");
}

/* Changes a clone, which the game does not notice. */
static void change(size_t i) {
    zkit *game = zkit_clone(games[i].game, NULL);
    if (!game)
        return;
    if (zkit_set_word(game, 64, 65536) != ZKIT_NOT_CHANGED || zkit_move_object(game, 65536, 1) != ZKIT_NOT_CHANGED)
        fail("a number of 17 bits is taken");
    change_word(game);
    move_object(game);
    zkit_close(game);
    compare(i);
}

static void turn(size_t i) {
    uint64_t text;
    if (games[i].turn + 1 >= turns || !answer(games[i].game, games[i].turn)) {
        drop(i);
        return;
    }
    games[i].turn++;
    if (run(games[i].game, &text) != ZKIT_AWAITS_LINE || text != stands[games[i].turn].text)
        fail("a turn shows something else than in the game alone");
    compare(i);
}

/* Any number, mostly a small one. */
static uint32_t number(void) {
    static const uint32_t edges[] = {0, 1, 255, 256, 65535, 65536, 0x7fffffff, 0xffffffff};
    return any(4) ? any(600) : edges[any(8)];
}

/* Looks at an object from all sides: what it tells must agree. */
static void look_at_object(zkit *game) {
    uint32_t object = number(), property = 0;
    zkit_object told = {sizeof told, 0, 0, 0, 0, 0, {0}};
    zkit_property next = {sizeof next, 0, 0, 0};
    size_t length = zkit_object_name(game, object, buffer, any(64));
    uint8_t bytes[8];
    if (zkit_object_of(game, object, &told) != ZKIT_DONE) {
        if (object > 0 && object <= zkit_objects(game))
            fail("an object that is counted is not there");
        return;
    }
    if (length > 63 || zkit_memory(game, told.entry, bytes, 4) != 4 || memcmp(bytes, told.attributes, 4) != 0)
        fail("the attributes of an object are not in its entry");
    for (int i = 0; i < 64 && zkit_property_of(game, object, property, &next) == ZKIT_DONE; i++) {
        if (object <= zkit_objects(game) && property > 0 && next.next >= property)
            fail("a property list goes up");
        if ((property = next.next) == 0)
            break;
    }
}

static void look_at_routines(zkit *game) {
    uint32_t which = number();
    uint16_t words[16];
    zkit_routine told = {sizeof told, 0, 0, 0, 0, 0, 0};
    size_t room = any(17);
    zkit_place place = {sizeof place, 0, 0, 0, 0, 0, 0, 0};
    zkit_place_of(game, &place);
    uint32_t answered = zkit_routine_of(game, which, &told);
    size_t locals = zkit_locals(game, which, words, room), stack = zkit_stack(game, which, room ? words : NULL, room);
    if ((answered == ZKIT_DONE) != (which <= place.routines))
        fail("another number of routines is open");
    if (locals != (told.locals < room ? told.locals : room) || stack != (told.words < room ? told.words : room))
        fail("a routine has other words than it tells");
}

static void look_at_memory(zkit *game) {
    uint32_t address = number();
    size_t count = zkit_memory(game, address, buffer, number() % BUFFER);
    if (count > 0 && hash_on(14695981039346656037u, buffer, count) != zkit_hash(game, address, (uint32_t)count))
        fail("bytes have another hash");
    count = zkit_coverage(game, address, buffer, any(512));
    for (size_t i = 0; i < count; i++)
        if (buffer[i] > 1)
            fail("a mark is neither 0 nor 1");
    if (zkit_waiting_transcript(game) != 0 || zkit_waiting_text(game) != 0)
        fail("text waits that was taken");
}

static void call(void) {
    size_t i = open_games ? any((uint32_t)open_games) : 0;
    uint32_t what = any(14);
    if (open_games == 0 || (what == 0 && open_games < GAMES))
        begin();
    else if (what < 3 && open_games < GAMES)
        clone(i);
    else if (what == 3)
        drop(i);
    else if (what < 6)
        turn(i);
    else if (what < 8)
        look_at_object(games[i].game);
    else if (what < 10)
        look_at_routines(games[i].game);
    else if (what < 12)
        look_at_memory(games[i].game);
    else if (what == 12 && open_games < GAMES)
        resume(i);
    else
        change(i);
}

/* Opens the story for games to share, again and again while memory is short, and keeps the last. */
static void open_story(void) {
    uint32_t reason;
    if (zkit_story_open(story, 63, &reason) || reason != ZKIT_TOO_SHORT)
        fail("a file of 63 bytes is opened");
    for (int i = 0; i < 200; i++) {
        zkit_story_close(opened);
        opened = zkit_story_open(story, story_length, &reason);
        if (reason != (opened ? ZKIT_OPENED : ZKIT_OPEN_NO_MEMORY))
            fail("the story is not opened for games to share");
    }
    while (!opened)
        opened = zkit_story_open(story, story_length, NULL);
}

int main(int count, char **words) {
    FILE *file = count == 3 ? fopen(words[1], "rb") : NULL;
    if (!file) {
        fprintf(stderr, "usage: clones STORY CALLS <LINES\n");
        return 2;
    }
    story_length = fread(story, 1, sizeof story, file);
    fclose(file);
    lines_length = fread(lines, 1, sizeof lines, stdin);
    play_alone();
    is_poor = 1;
    open_story();
    for (long most = atol(words[2]); calls < most; calls++)
        call();
    if (any(2) && open_games > 0) {
        zkit_story_close(opened);
        opened = NULL;
        compare(0);
    }
    while (open_games > 0)
        drop(0);
    zkit_story_close(opened);
    if (blocks != 0)
        fail("blocks are left");
    printf("%ld calls, %ld games, %zu turns\n", calls, games_opened, turns);
    return 0;
}
