/* Calls of each export in each mode, in random sequences, with hostile numbers and lengths. Each
   answer is held to what the mode allows; what is refused has changed nothing that can be seen.
   Sources of random pieces are compiled, and what compiles loads. */
#include "sulkhen.h"

#include <limits.h>
#include <stdio.h>
#include <stdlib.h>
#include <string.h>

enum { CALLS = 40, ROOM = 512, FILE_ROOM = 1 << 16 };

static uint64_t seed = 1;

static uint32_t any(void) {
    seed = seed * 6364136223846793005u + 1442695040888963407u;
    return (uint32_t)(seed >> 33);
}

static uint32_t below(uint32_t n) { return any() % n; }

/* an address, an index or an answer */
static int32_t number(void) {
    static const int32_t odd[] = { 0, 1, -1, 3, 4, -4, 8, 31, 1024, 16384, INT_MAX, INT_MIN, INT_MAX - 3 };
    switch (below(4)) {
    case 0: return (int32_t)(any() << 1 ^ any());
    case 1: return (int32_t)(4 * below(6000));
    case 2: return (int32_t)below(16);
    default: return odd[below(sizeof odd / sizeof *odd)];
    }
}

static size_t length(void) { return below(3) ? below(12) : below(ROOM + 1); }

static void wrong(const char *what, int32_t code, int32_t mode) {
    printf("wrong: %s answers %d in mode %d\n", what, (int)code, (int)mode);
    exit(1);
}

/* ---- what can be seen of a machine */

typedef struct {
    int32_t mode, arguments;
    uint32_t count;
    size_t data, stack, image;
    uint64_t sum;
} sight;

static int32_t cells[FILE_ROOM];
static uint8_t seen[1 << 18];

static uint64_t mix(uint64_t sum, uint32_t next) { return (sum ^ next) * 1099511628211u; }

/* the live cells from an address on, summed; and how many there are */
static size_t see_cells(sulkhen *m, int32_t at, uint64_t *sum) {
    size_t n = sulkhen_read(m, at, cells, FILE_ROOM);
    for (size_t k = 0; k < n && k < FILE_ROOM; k++) *sum = mix(*sum, (uint32_t)cells[k]);
    return n;
}

/* the live stack: from its lowest address on, all up to the top's are live, and none between the
   heap and it. How many cells it has is found by halves: those of the last so many at their place. */
static size_t see_stack(sulkhen *m, uint64_t *sum) {
    uint32_t low = 0, high = FILE_ROOM;
    int32_t at = 0;
    while (low < high) {
        uint32_t count = low + (high - low + 1) / 2;
        if (sulkhen_place(m, count, &at) == SULKHEN_DONE && sulkhen_read(m, at, cells, 0) == count) low = count;
        else high = count - 1;
    }
    return low > 0 && sulkhen_place(m, low, &at) == SULKHEN_DONE ? see_cells(m, at, sum) : 0;
}

static sight see(sulkhen *m) {
    sight it = { 0, 0, 0, 0, 0, 0, 14695981039346656037u };
    it.mode = sulkhen_mode(m);
    it.arguments = sulkhen_arguments(m, &it.count);
    it.data = see_cells(m, 0, &it.sum);
    it.stack = see_stack(m, &it.sum);
    it.image = sulkhen_image(m, seen, sizeof seen);
    for (size_t k = 0; k + 4 <= it.image && k + 4 <= sizeof seen; k += 4) {
        uint32_t word;
        memcpy(&word, seen + k, 4);
        it.sum = mix(it.sum, word);
    }
    return it;
}

static int same(sight a, sight b) {
    return a.mode == b.mode && a.arguments == b.arguments && a.count == b.count && a.data == b.data
        && a.stack == b.stack && a.image == b.image && a.sum == b.sum;
}

/* ---- files */

static uint8_t files[2][FILE_ROOM], image[1 << 18];
static size_t sizes[2], image_size;

static void read_file(int which, const char *name) {
    FILE *file = fopen(name, "rb");
    if (!file) wrong(name, 0, 0);
    sizes[which] = fread(files[which], 1, FILE_ROOM, file);
    fclose(file);
}

/* a file with some bytes changed, or cut, mostly refused */
static void load_hostile(int which) {
    static uint8_t bytes[FILE_ROOM];
    sulkhen m;
    int64_t place = 0;
    size_t size = below(4) ? sizes[which] : below((uint32_t)sizes[which] + 1);
    memcpy(bytes, files[which], sizes[which]);
    for (uint32_t k = below(6); k > 0; k--) bytes[below((uint32_t)sizes[which])] = (uint8_t)any();
    int32_t code = sulkhen_load(bytes, size, &m, &place);
    if (code == SULKHEN_DONE) {
        sulkhen_event event;
        if (sulkhen_start(&m, -1, cells, below(8)) == SULKHEN_DONE) sulkhen_run(&m, below(5000), &event);
        sulkhen_free(m);
    } else if (code != 15 && (code < 80 || code > 107)) wrong("load", code, 0);
}

/* ---- calls */

static int32_t ints[ROOM];
static uint8_t bytes[ROOM];
static unsigned done[20][6], compiled[16];

/* One call of an export, held to what the mode before allows. Tells whether it may change what can
   be seen. */
typedef int tried(sulkhen *m, const sight *was);

static int try_public_number(sulkhen *m, const sight *was) {
    size_t found = 4711;
    int32_t code = sulkhen_public_number(m, bytes, length(), &found);
    if (code != SULKHEN_NO_SUCH && code != SULKHEN_DONE) wrong("public_number", code, was->mode);
    if (code == SULKHEN_NO_SUCH && found != 4711) wrong("number", code, was->mode);
    return 0;
}

static int try_native_number(sulkhen *m, const sight *was) {
    size_t found = 4711;
    int32_t code = sulkhen_native_number(m, bytes, length(), &found);
    if (code == SULKHEN_DONE ? found >= sulkhen_natives(m) : code != SULKHEN_NO_SUCH || found != 4711)
        wrong("native_number", code, was->mode);
    return 0;
}

static int try_native_name(sulkhen *m, const sight *was) {
    size_t k = (size_t)number(), size;
    int32_t code = sulkhen_native_name(m, k, bytes, length(), &size);
    if ((code == SULKHEN_DONE) != (k < sulkhen_natives(m))) wrong("native_name", code, was->mode);
    return 0;
}

static int try_natives(sulkhen *m, const sight *was) {
    size_t count = sulkhen_natives(m);
    if (count > 16) wrong("natives", (int32_t)count, was->mode);
    return 0;
}

static int try_mode(sulkhen *m, const sight *was) {
    int32_t mode = sulkhen_mode(m);
    if (mode != was->mode) wrong("mode", mode, was->mode);
    return 0;
}

/* ---- starts and runs */

static int try_start(sulkhen *m, const sight *was) {
    size_t n = length();
    int32_t code = sulkhen_start(m, below(3) ? -1 : number(), ints, n);
    int idle = was->mode == SULKHEN_LOADED || was->mode == SULKHEN_HALTED;
    if (code == SULKHEN_DONE && !idle) wrong("start", code, was->mode);
    if (code == SULKHEN_NOT_NOW && was->mode == SULKHEN_LOADED) wrong("start", code, was->mode);
    return code == SULKHEN_DONE;
}

static int try_place(sulkhen *m, const sight *was) {
    int32_t at = 4711, code = sulkhen_place(m, (uint32_t)number(), &at);
    if (code == SULKHEN_DONE ? at < 0 || at % 4 != 0 : code != SULKHEN_NO_ROOM || at != 4711)
        wrong("place", code, was->mode);
    return 0;
}

static int try_run(sulkhen *m, const sight *was) {
    sulkhen_event event = { 77, 77, 77, 77, 77 };
    uint64_t steps = below(3) ? below(200) : below(100000);
    int32_t code = sulkhen_run(m, steps, &event);
    int steady = was->mode != SULKHEN_LOADED && was->mode != SULKHEN_WAITING;
    if ((code == SULKHEN_DONE) != steady) wrong("run", code, was->mode);
    if (steady && (event.steps > steps || event.kind < 0 || event.kind > 5)) wrong("event", event.kind, was->mode);
    if (!steady && event.kind != 77) wrong("event", event.kind, was->mode);
    return steady;
}

/* ---- natives */

static int try_arguments(sulkhen *m, const sight *was) {
    uint32_t count = 0;
    int32_t code = sulkhen_arguments(m, &count);
    if ((code == SULKHEN_NOT_NOW) != (was->mode != SULKHEN_WAITING)) wrong("arguments", code, was->mode);
    return 0;
}

static int try_argument(sulkhen *m, const sight *was) {
    uint32_t k = (uint32_t)number();
    int32_t cell = 0, code = sulkhen_argument(m, k, &cell);
    if ((code == SULKHEN_DONE) != (was->arguments == SULKHEN_DONE && k < was->count)) wrong("argument", code, was->mode);
    return 0;
}

/* what only a machine that waits takes */
static int held_to_waiting(const char *what, int32_t code, const sight *was) {
    if ((code == SULKHEN_DONE) != (was->mode == SULKHEN_WAITING)) wrong(what, code, was->mode);
    return code == SULKHEN_DONE;
}

static int try_answer(sulkhen *m, const sight *was) {
    return held_to_waiting("answer", sulkhen_answer(m, number()), was);
}

static int try_fail(sulkhen *m, const sight *was) {
    return held_to_waiting("fail", sulkhen_fail(m, number()), was);
}

static int try_park(sulkhen *m, const sight *was) {
    return held_to_waiting("park", sulkhen_park(m, number()), was);
}

/* ---- memory */

static int try_read(sulkhen *m, const sight *was) {
    size_t n = length();
    if (n < ROOM) ints[n] = 4711;
    sulkhen_read(m, number(), ints, n);
    if (n < ROOM && ints[n] != 4711) wrong("read", (int32_t)n, was->mode);
    return 0;
}

static int try_write(sulkhen *m, const sight *was) {
    int32_t at = number();
    size_t n = length(), live = sulkhen_read(m, at, ints, 0);
    int32_t code = sulkhen_write(m, at, ints, n);
    if ((code == SULKHEN_DONE) != (n <= live)) wrong("write", code, was->mode);
    return code == SULKHEN_DONE;
}

static int try_text(sulkhen *m, const sight *was) {
    size_t size = 0;
    int32_t code = sulkhen_text(m, number(), ints, length(), &size);
    if (code != SULKHEN_DONE && code != SULKHEN_NOT_LIVE) wrong("text", code, was->mode);
    return 0;
}

static int try_write_text(sulkhen *m, const sight *was) {
    int32_t at = number();
    size_t n = length(), size = 0, live = sulkhen_read(m, at, ints, 0);
    bool packed = below(2);
    for (size_t k = 0; k < n; k++) bytes[k] = (uint8_t)(1 + below(255));
    int32_t code = sulkhen_write_text(m, at, bytes, n, packed);
    if ((code == SULKHEN_DONE) != ((packed ? n / 4 + 1 : n + 1) <= live)) wrong("write_text", code, was->mode);
    if (code != SULKHEN_DONE) return 0;
    if (sulkhen_text(m, at, ints, ROOM, &size) != SULKHEN_DONE || size != n) wrong("text", (int32_t)size, was->mode);
    for (size_t k = 0; k < n; k++)
        if (ints[k] != bytes[k]) wrong("character", ints[k], was->mode);
    return 1;
}

/* ---- images */

static int try_save(sulkhen *m, const sight *was) {
    int32_t code = sulkhen_save(m, any());
    if ((code == SULKHEN_DONE) != (was->mode == SULKHEN_ASLEEP)) wrong("save", code, was->mode);
    if (code == SULKHEN_DONE && sulkhen_image(m, image, 0) <= sizeof image) image_size = sulkhen_image(m, image, sizeof image);
    return code == SULKHEN_DONE;
}

static int try_image(sulkhen *m, const sight *was) {
    size_t size = sulkhen_image(m, bytes, length());
    if (size != was->image) wrong("image", (int32_t)size, was->mode);
    return 0;
}

static int try_restore(sulkhen *m, const sight *was) {
    uint32_t kept = 0;
    if (image_size && below(2)) image[below((uint32_t)image_size)] ^= (uint8_t)(1u << below(8));
    size_t n = below(3) ? image_size : below((uint32_t)image_size + 1);
    int32_t code = sulkhen_restore(m, image, n, &kept);
    if (code != SULKHEN_DONE && (code < 120 || code > 127)) wrong("restore", code, was->mode);
    return code == SULKHEN_DONE;
}

enum { TRIES = 20, START = 3, RUN = 5, ANSWER = 8 };

/* behind an answer the two others of a machine that waits */
static tried *const tries[TRIES] = {
    try_public_number, try_native_number, try_native_name, try_start, try_place,
    try_run, try_arguments, try_argument, try_answer, try_fail,
    try_park, try_read, try_write, try_text, try_write_text,
    try_save, try_image, try_restore, try_mode, try_natives
};

/* ---- sources */

static size_t pieces(uint8_t *out, size_t room) {
    static const char *const some[] = {
        "main() { }", "main() {", "}", "new x;", "x = 1;", "return 7;", "#include \"b\"\n", "\n", "\"", "(", ";",
        "f() return 1;", "#define x y\n", "/*", "new Tag:t = 1;", "\xc3\xa9", "#if 1\n", "#endif\n", "sleep 1;"
    };
    size_t n = 0;
    for (uint32_t k = below(6); k > 0; k--) {
        const char *piece = some[below(sizeof some / sizeof *some)];
        if (n + strlen(piece) > room) break;
        memcpy(out + n, piece, strlen(piece));
        n += strlen(piece);
    }
    return n;
}

/* what is read agrees with the status of the last source */
static void see_sources(sulkhen_sources *s, int32_t status) {
    size_t size = 4711, n = sulkhen_compiled(s, bytes, length()), many = sulkhen_warnings(s);
    uint32_t line = 4711;
    int32_t rule = sulkhen_refusal(s, bytes, length(), &size, &line);
    if ((status == SULKHEN_DONE) != (n > 0)) wrong("compiled", (int32_t)n, status);
    if ((status == SULKHEN_REFUSED) != (rule >= 1 && rule <= 71 && line > 0)) wrong("refusal", rule, status);
    if (status != SULKHEN_DONE && many > 0) wrong("warnings", (int32_t)many, status);
    size_t k = below(3);
    int32_t code = sulkhen_warning(s, k, bytes, length(), &size, &line);
    if ((code == SULKHEN_DONE) != (k < many)) wrong("warning", code, status);
}

static void load_compiled(sulkhen_sources *s) {
    static uint8_t file[FILE_ROOM];
    sulkhen m;
    int64_t place;
    size_t n = sulkhen_compiled(s, file, FILE_ROOM);
    if (n > FILE_ROOM) return;
    int32_t code = sulkhen_load(file, n, &m, &place);
    if (code != SULKHEN_DONE) wrong("load of what was compiled", code, 0);
    sulkhen_free(m);
}

static void compile_hostile(void) {
    static const char *const names[] = { "a", "b", "b.inc", "\xff", "" };
    sulkhen_sources s;
    int32_t status = -1;
    if (sulkhen_sources_new(&s) != SULKHEN_DONE) wrong("sources", 15, 0);
    for (uint32_t k = 2 + below(8); k > 0; k--) {
        const char *name = names[below(sizeof names / sizeof *names)];
        const uint8_t *as_bytes = (const uint8_t *)name;
        int is_text = name[0] != '\xff';
        if (below(2)) {
            uint8_t text[ROOM];
            size_t n = pieces(text, ROOM);
            int32_t code = sulkhen_hold(&s, as_bytes, strlen(name), text, n);
            if (code != (is_text ? SULKHEN_DONE : SULKHEN_NO_SOURCE)) wrong("hold", code, status);
        } else {
            int32_t code = sulkhen_compile(&s, as_bytes, strlen(name), below(2));
            if (!is_text && code != SULKHEN_NO_SOURCE) wrong("compile", code, status);
            if (code != 0 && code != 1 && code != 3) wrong("compile", code, status);
            if (is_text) status = code;
            compiled[code]++;
            if (code == SULKHEN_DONE) load_compiled(&s);
        }
        see_sources(&s, status);
    }
    sulkhen_sources_free(s);
}

int main(int count, char **words) {
    if (count != 4) return 2;
    read_file(0, words[1]);
    read_file(1, words[2]);
    long sequences = atol(words[3]);
    for (long turn = 0; turn < sequences; turn++) {
        int which = (int)below(2);
        sulkhen m;
        int64_t place = 0;
        if (below(8) == 0) load_hostile(which);
        if (below(16) == 0) compile_hostile();
        int32_t code = sulkhen_load(files[which], sizes[which], &m, &place);
        if (code != SULKHEN_DONE) wrong("load", code, 0);
        for (int k = 0; k < ROOM; k++) ints[k] = below(2) ? number() : (int32_t)below(4096);
        sight was = see(&m);
        for (uint32_t k = below(CALLS); k > 0; k--) {
            /* more often what leads on */
            uint32_t export = below(2) ? below(TRIES) : was.mode == SULKHEN_WAITING ? ANSWER + below(3)
                : was.mode == SULKHEN_LOADED || was.mode == SULKHEN_HALTED ? START : RUN;
            int may_change = tries[export](&m, &was);
            done[export][was.mode]++;
            sight now = see(&m);
            if (!may_change && !same(was, now)) wrong("a call that changes nothing", (int32_t)export, was.mode);
            was = now;
        }
        sulkhen_free(m);
    }
    /* few sequences don't come to each answer, and to each mode with each call */
    int many = sequences >= 10000;
    for (int k = 0; k < TRIES && many; k++)
        for (int mode = 0; mode < 6; mode++)
            if (done[k][mode] == 0) { printf("export %d wasn't called in mode %d\n", k, mode); return 1; }
    if (many && (!compiled[0] || !compiled[1] || !compiled[3])) { printf("compile answered too little\n"); return 1; }
    printf("%ld sequences\n", sequences);
    return 0;
}
