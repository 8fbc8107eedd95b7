/* A game loop with two scripts: a guard whose publics are called with texts and arrays, and a clock
   that sleeps, is saved, and is restored into another machine. Scripts whose names end in .p are
   compiled first, in memory. */
#include "sulkhen.h"

#include <stdio.h>
#include <stdlib.h>
#include <string.h>

enum { STEPS = 1000, ROUNDS = 3 };

static void stop(const char *what, int32_t code) {
    fprintf(stderr, "%s: %d\n", what, (int)code);
    exit(1);
}

static void must(const char *what, int32_t code) {
    if (code != SULKHEN_DONE) stop(what, code);
}

/* ---- a machine with the names of its natives, looked up once */

enum native { SAY, DISTANCE, MOVE, REST, BEAT, ASK, NATIVES };

static const char *const names[NATIVES] = { "say", "distance", "move", "rest", "beat", "ask" };

typedef struct {
    sulkhen machine;
    enum native natives[16];
} script;

static uint8_t *read_file(const char *name, size_t *size) {
    FILE *file = fopen(name, "rb");
    if (!file) stop(name, -1);
    size_t room = 1 << 20;
    uint8_t *bytes = malloc(room);
    if (!bytes) stop("memory", SULKHEN_NO_MEMORY);
    *size = fread(bytes, 1, room, file);
    fclose(file);
    return bytes;
}

static void refuse(sulkhen_sources *s) {
    uint8_t file[64];
    size_t n;
    uint32_t line;
    int32_t rule = sulkhen_refusal(s, file, sizeof file, &n, &line);
    fprintf(stderr, "refused %d at %.*s:%u\n", (int)rule, (int)(n < 64 ? n : 64), (const char *)file, line);
    exit(1);
}

/* what a source is compiled to */
static uint8_t *compile(const char *name, const uint8_t *source, size_t n, size_t *size) {
    sulkhen_sources s;
    must("sources", sulkhen_sources_new(&s));
    must("hold", sulkhen_hold(&s, (const uint8_t *)name, strlen(name), source, n));
    int32_t status = sulkhen_compile(&s, (const uint8_t *)name, strlen(name), true);
    if (status == SULKHEN_REFUSED) refuse(&s);
    must("compile", status);
    *size = sulkhen_compiled(&s, &(uint8_t){ 0 }, 0);
    uint8_t *bytes = malloc(*size);
    if (!bytes) stop("memory", SULKHEN_NO_MEMORY);
    sulkhen_compiled(&s, bytes, *size);
    sulkhen_sources_free(s);
    return bytes;
}

/* the bytes of a file, or of what a source is compiled to */
static uint8_t *read_script(const char *name, size_t *size) {
    size_t n = strlen(name);
    uint8_t *file = read_file(name, size);
    if (n < 2 || strcmp(name + n - 2, ".p") != 0) return file;
    uint8_t *compiled = compile(name, file, *size, size);
    free(file);
    return compiled;
}

static enum native native_named(const uint8_t *name, size_t n) {
    for (int k = 0; k < NATIVES; k++)
        if (strlen(names[k]) == n && memcmp(names[k], name, n) == 0) return (enum native)k;
    fprintf(stderr, "no native %.*s\n", (int)n, (const char *)name);
    exit(1);
}

static script load(const char *name) {
    script made;
    size_t size;
    int64_t place = 0;
    uint8_t *file = read_script(name, &size);
    int32_t code = sulkhen_load(file, size, &made.machine, &place);
    free(file);
    if (code != SULKHEN_DONE) {
        fprintf(stderr, "%s: invalid %d at %lld\n", name, (int)code, (long long)place);
        exit(1);
    }
    size_t count = sulkhen_natives(&made.machine);
    if (count > 16) stop("too many natives", (int32_t)count);
    for (size_t k = 0; k < count; k++) {
        uint8_t text[32];
        size_t n;
        must("name", sulkhen_native_name(&made.machine, k, text, sizeof text, &n));
        made.natives[k] = native_named(text, n < sizeof text ? n : sizeof text);
    }
    return made;
}

static int32_t entry(script *it, const char *name) {
    size_t number;
    must(name, sulkhen_public_number(&it->machine, (const uint8_t *)name, strlen(name), &number));
    return (int32_t)number;
}

/* ---- natives */

static int32_t argument(sulkhen *m, uint32_t index) {
    int32_t value = 0;
    must("argument", sulkhen_argument(m, index, &value));
    return value;
}

/* a text of the script, as far as there is room */
static int32_t text_at(sulkhen *m, int32_t at, char *out, size_t room) {
    int32_t characters[64];
    size_t n, k;
    int32_t code = sulkhen_text(m, at, characters, 64, &n);
    if (code != SULKHEN_DONE) return code;
    for (k = 0; k < n && k < 64 && k + 1 < room; k++) out[k] = (char)characters[k];
    out[k] = 0;
    return SULKHEN_DONE;
}

/* what the native that is waited for does, as a line, and its answer: 0, or an AMX error */
static int32_t serve(script *it, uint32_t number, int32_t *answer) {
    sulkhen *m = &it->machine;
    char text[64];
    int32_t home[2];
    switch (it->natives[number]) {
    case SAY:
        if (text_at(m, argument(m, 0), text, sizeof text) != SULKHEN_DONE) return 10;
        *answer = 0;
        printf("native say \"%s\" -> 0\n", text);
        return 0;
    case DISTANCE: {
        int32_t x = argument(m, 0), y = argument(m, 1);
        if (sulkhen_read(m, argument(m, 2), home, 2) < 2) return 10;
        *answer = abs(x - home[0]) + abs(y - home[1]);
        printf("native distance %d %d [%d %d] -> %d\n", x, y, home[0], home[1], *answer);
        return 0;
    }
    case MOVE:
        *answer = 0;
        printf("native move %d %d -> 0\n", argument(m, 0), argument(m, 1));
        return 0;
    case REST:
        *answer = 0;
        printf("native rest -> 0\n");
        return 0;
    case BEAT:
        *answer = 0;
        printf("native beat %d -> 0\n", argument(m, 0));
        return 0;
    case ASK:
        *answer = 3;
        printf("native ask -> 3\n");
        return 0;
    default:
        return 10;
    }
}

/* runs up to a sleep or an end, by portions of steps, and serves the natives */
static sulkhen_event go(script *it) {
    sulkhen_event event;
    for (;;) {
        must("run", sulkhen_run(&it->machine, STEPS, &event));
        if (event.kind == SULKHEN_GOING) continue;
        if (event.kind != SULKHEN_NATIVE) return event;
        int32_t answer = 0, fault = serve(it, event.native, &answer);
        if (fault) must("fail", sulkhen_fail(&it->machine, fault));
        else must("answer", sulkhen_answer(&it->machine, answer));
    }
}

/* the line of a sleep or an end */
static void show(sulkhen_event event) {
    switch (event.kind) {
    case SULKHEN_SLEEP: printf("sleep %d tag %d\n", event.value, event.tag); break;
    case SULKHEN_END: printf("done %d\n", event.value); break;
    case SULKHEN_EXIT: printf("exit %d tag %d\n", event.value, event.tag); break;
    default: printf("error %d\n", event.value);
    }
}

/* ---- the game */

static void run_all(script *it) {
    sulkhen_event event;
    must("start", sulkhen_start(&it->machine, -1, &(int32_t){ 0 }, 0));
    do show(event = go(it));
    while (event.kind == SULKHEN_SLEEP);
}

/* a round: the public is given a number, a text and an array; each second text is packed */
static void tick(script *guard, int32_t public_tick, int32_t id, int32_t x, int32_t y) {
    enum { ARGUMENTS = 3, NAME = 4, SEEN = 2 };
    int32_t cells[ARGUMENTS + NAME + SEEN] = { id, 0, 0, 0, 0, 0, 0, x, y };
    must("place", sulkhen_place(&guard->machine, NAME + SEEN, &cells[1]));
    must("place", sulkhen_place(&guard->machine, SEEN, &cells[2]));
    must("start", sulkhen_start(&guard->machine, public_tick, cells, ARGUMENTS + NAME + SEEN));
    must("text", sulkhen_write_text(&guard->machine, cells[1], (const uint8_t *)"Bob", 3, id % 2 == 1));
    show(go(guard));
}

/* a text that the script writes, and says */
static void name_of(script *guard, int32_t public_name) {
    enum { ROOM = 8 };
    int32_t cells[2 + ROOM] = { 0, ROOM };
    must("place", sulkhen_place(&guard->machine, ROOM, &cells[0]));
    must("start", sulkhen_start(&guard->machine, public_name, cells, 2 + ROOM));
    show(go(guard));
}

/* the clock up to its second sleep, then saved; another machine goes on from there */
static void save_and_restore(const char *name) {
    script first = load(name), second = load(name);
    uint8_t image[1 << 16];
    uint32_t number = 0;
    sulkhen_event event;
    must("start", sulkhen_start(&first.machine, -1, &(int32_t){ 0 }, 0));
    show(go(&first));
    show(go(&first));
    must("save", sulkhen_save(&first.machine, 2));
    size_t size = sulkhen_image(&first.machine, image, sizeof image);
    sulkhen_free(first.machine);
    if (size > sizeof image) stop("image", SULKHEN_NO_ROOM);
    must("restore", sulkhen_restore(&second.machine, image, size, &number));
    printf("restored %u\n", number);
    do show(event = go(&second));
    while (event.kind == SULKHEN_SLEEP);
    sulkhen_free(second.machine);
}

int main(int count, char **words) {
    if (count != 3) {
        fprintf(stderr, "game GUARD CLOCK, each a .amx or a .p\n");
        return 2;
    }
    script guard = load(words[1]), clock = load(words[2]);
    run_all(&guard);
    run_all(&clock);
    int32_t public_tick = entry(&guard, "@tick");
    for (int32_t round = 0; round < ROUNDS; round++)
        tick(&guard, public_tick, round, 2 + round, 4 + round);
    name_of(&guard, entry(&guard, "@name"));
    sulkhen_free(guard.machine);
    sulkhen_free(clock.machine);
    save_and_restore(words[2]);
    return 0;
}
