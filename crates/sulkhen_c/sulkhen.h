/* Pawn scripts in a C program: the abstract machine of a compiled file behind a handle, and the
   compiler over sources in memory behind another.

   Each call may be made in each mode and with each number and length: what isn't done is told by
   the code that it answers, and has changed nothing. The codes: 0 done; -1 the machine's mode
   doesn't allow the call; else AMX errors (Implementer's Guide: 3 no room, 5 no live memory, 20 no
   such number or name), 15 no memory, and of docs/FAULTS.md 80 to 107 faults of a file, 120 to 127
   of an image. The calls on sources answer the statuses of the program there.

   A handle owns what it was made with. It belongs to one call at a time and stays on its thread.
   Only sulkhen_load, sulkhen_sources_new, sulkhen_hold and sulkhen_compile take memory, by
   rattle_alloc, rattle_realloc and rattle_dealloc.

   No pointer is null, not even where a count is 0: give the address of something. Places and
   arrays that one call is given don't overlap. */
#ifndef SULKHEN_H
#define SULKHEN_H

#include <stdbool.h>
#include <stddef.h>
#include <stdint.h>

#ifdef __cplusplus
extern "C" {
#endif

typedef struct {
    void *at;
} sulkhen;

enum {
    SULKHEN_DONE = 0,
    SULKHEN_NOT_NOW = -1,
    SULKHEN_NO_ROOM = 3,
    SULKHEN_NOT_LIVE = 5,
    SULKHEN_NO_MEMORY = 15,
    SULKHEN_NO_SUCH = 20
};

/* the modes, as sulkhen_mode tells them */
enum {
    SULKHEN_LOADED = 0,
    SULKHEN_RUNNING = 1,
    SULKHEN_ASLEEP = 2,
    SULKHEN_WAITING = 3,
    SULKHEN_HALTED = 4,
    SULKHEN_FAILED = 5
};

/* what a run came to */
enum {
    SULKHEN_GOING = 0,  /* all steps were done */
    SULKHEN_NATIVE = 1, /* the native with this number is waited for */
    SULKHEN_SLEEP = 2,  /* a sleep: its value and its tag */
    SULKHEN_END = 3,    /* the function returned this value */
    SULKHEN_EXIT = 4,   /* an exit: its value and its tag */
    SULKHEN_ERROR = 5   /* the AMX error in value */
};

typedef struct {
    uint64_t steps;
    int32_t kind;
    uint32_t native;
    int32_t value;
    int32_t tag;
} sulkhen_event;

/* A machine of a file, in its first state; the file isn't kept. Where the answer is 0, `m` is its
   handle; what stood there before is forgotten, so it must own nothing. Else `m` is as it was, and
   `place` the address of an instruction, or the number of an entry, of the faults 100 to 107, and 0
   of the others. */
int32_t sulkhen_load(const uint8_t *file, size_t size, sulkhen *m, int64_t *place);
void sulkhen_free(sulkhen m);
int32_t sulkhen_mode(sulkhen *m);

/* Numbers by names and names by numbers. A name that is copied has no zero behind it, and is cut
   where there is no room for all of it; `size` is its whole length. */
int32_t sulkhen_public_number(sulkhen *m, const uint8_t *name, size_t n, size_t *number);
size_t sulkhen_natives(sulkhen *m);
int32_t sulkhen_native_number(sulkhen *m, const uint8_t *name, size_t n, size_t *number);
int32_t sulkhen_native_name(sulkhen *m, size_t number, uint8_t *out, size_t room, size_t *size);

/* Starts a machine that was loaded or is done: at main, as -1, or at a public by its number. The
   cells stand on its stack: an entry's arguments, and behind them arrays and texts, which arguments
   name by their addresses. The last `count` of the cells begin at the address that sulkhen_place
   tells; they are live until the entry returns. */
int32_t sulkhen_start(sulkhen *m, int32_t entry, const int32_t *cells, size_t n);
int32_t sulkhen_place(sulkhen *m, uint32_t count, int32_t *at);

/* So many steps at most, up to the first event. */
int32_t sulkhen_run(sulkhen *m, uint64_t steps, sulkhen_event *out);

/* Of the native that is waited for: its arguments, and its answer, an error in its place, or its
   answer with a sleep behind it, so that an image can be saved. */
int32_t sulkhen_arguments(sulkhen *m, uint32_t *count);
int32_t sulkhen_argument(sulkhen *m, uint32_t index, int32_t *out);
int32_t sulkhen_answer(sulkhen *m, int32_t value);
int32_t sulkhen_fail(sulkhen *m, int32_t error);
int32_t sulkhen_park(sulkhen *m, int32_t value);

/* The cells from an address up to the end of its live part: how many there are, and copies of as
   many as there is room for. A write is done whole or not at all. */
size_t sulkhen_read(sulkhen *m, int32_t at, int32_t *out, size_t room);
int32_t sulkhen_write(sulkhen *m, int32_t at, const int32_t *cells, size_t n);

/* The characters of the text at an address, packed or not: as many as there is room for, and how
   many there are. 5 where no zero ends it. */
int32_t sulkhen_text(sulkhen *m, int32_t at, int32_t *out, size_t room, size_t *size);

/* Writes a text to an address, a byte in each cell, or packed four to a cell, with a zero behind
   it: n + 1 cells, or n / 4 + 1. It is done whole or not at all. */
int32_t sulkhen_write_text(sulkhen *m, int32_t at, const uint8_t *text, size_t n, bool packed);

/* The image of a machine at a sleep, with a number of the host's own: made by sulkhen_save, and
   copied by sulkhen_image, which tells its size. An image restores a machine of the same file, in
   each mode; then it is at that sleep. */
int32_t sulkhen_save(sulkhen *m, uint32_t number);
size_t sulkhen_image(sulkhen *m, uint8_t *out, size_t room);
int32_t sulkhen_restore(sulkhen *m, const uint8_t *image, size_t n, uint32_t *number);

/* ---- sources in memory

   Each name is UTF-8. What a source includes is looked for among the names, as the commands look
   for files: `#include <console>` is the name console.inc. */
typedef struct {
    void *at;
} sulkhen_sources;

enum {
    SULKHEN_REFUSED = 1,
    SULKHEN_NO_SOURCE = 3,
    SULKHEN_TOO_LARGE = 4
};

/* No sources at first; what stood at `s` before is forgotten, so it must own nothing. 0 or 15. */
int32_t sulkhen_sources_new(sulkhen_sources *s);
void sulkhen_sources_free(sulkhen_sources s);

/* Gives a name these bytes, in place of what it held. 0, 15, or 3 for a name that isn't UTF-8. */
int32_t sulkhen_hold(sulkhen_sources *s, const uint8_t *name, size_t n, const uint8_t *bytes, size_t size);

/* Compiles the source of a name, and keeps what it comes to until the next: 0 there is a file; 1 it
   breaks a rule; 3 the name isn't held; 4 a source is larger than 16,777,216 bytes; 15 no memory.
   A compact file is shorter, and loads to the same machine. */
int32_t sulkhen_compile(sulkhen_sources *s, const uint8_t *name, size_t n, bool compact);

/* The bytes of the file: how many there are, and copies of as many as there is room for. */
size_t sulkhen_compiled(sulkhen_sources *s, uint8_t *out, size_t room);

/* The warnings of its source, each with the name of its file, as sulkhen_native_name tells names,
   and its line. 20 where there is none with the number. */
size_t sulkhen_warnings(sulkhen_sources *s);
int32_t sulkhen_warning(sulkhen_sources *s, size_t number, uint8_t *file, size_t room, size_t *size, uint32_t *line);

/* The number of the rule that the source breaks (docs/FAULTS.md), with the file and the line where
   it does; 0 where it breaks none. Of a source that is too large, 0 and the name. */
int32_t sulkhen_refusal(sulkhen_sources *s, uint8_t *file, size_t room, size_t *size, uint32_t *line);

#ifdef __cplusplus
}
#endif

#endif
