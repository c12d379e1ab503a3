/* pymhooks: what a running CPython asks of its allocators, as a log.
 *
 * Hooks lie on top of the raw, mem and object domains (PyMem_GetAllocator, PyMem_SetAllocator). Each call that succeeds is
 * handed on and leaves one record of 24 bytes in a file that is mapped in memory and shared, so that the log outlives any
 * death of the process: exit, signal or abort. The log has three parts:
 *
 *     0        Header: counts, and why the recording ended
 *     4096     the records, in the order of the calls
 *     then     the texts: names of files, and marks
 *
 * This file decides nothing about traces: names, tracks, the lock, limits and spelling are the business of conversion.py.
 *
 * Rules that it keeps
 *  - While it records it allocates nothing through Python or malloc, but by mmap alone.
 *  - A call that an allocator makes of another domain from inside (pymalloc hands a large request to PyMem_RawMalloc) is
 *    not logged: the thread's depth tells it.
 *  - The mutex is held over this file's own tables only, and over no call of a real allocator: tracemalloc's raw hook may
 *    lie below and wait for the interpreter lock.
 *  - An address leaves the table before the real free or realloc, which may hand it to another thread at once, and enters
 *    it after the real malloc.
 *  - Once laid, hooks stay: another hook (tracemalloc's) may lie on top of them. When the recording has ended they hand
 *    calls on and do no more.
 *
 * With PYMHOOKS_MAIN it is a program besides: a python that records from the interpreter's first allocation.
 */
#define PY_SSIZE_T_CLEAN
#define Py_BUILD_CORE_MODULE 1
#include <Python.h>
#if PY_VERSION_HEX < 0x030B0000 || PY_VERSION_HEX >= 0x030E0000 || defined(Py_GIL_DISABLED)
#error "pymhooks knows the frames of CPython 3.11 to 3.13 with the interpreter lock"
#endif
#include "internal/pycore_frame.h"
#if PY_VERSION_HEX >= 0x030D0000
#include "internal/pycore_pymem.h"
#endif
#include <fcntl.h>
#include <pthread.h>
#include <stdint.h>
#include <string.h>
#include <sys/mman.h>
#include <unistd.h>

typedef struct _PyInterpreterFrame Frame;
#if PY_VERSION_HEX >= 0x030D0000
#define CODE_OF(frame) _PyFrame_GetCode(frame)
#define PLACE_IN(frame) ((void *)(frame)->instr_ptr)
#define NEWEST_OF(state) ((state)->current_frame)
#else
#define CODE_OF(frame) ((frame)->f_code)
#define PLACE_IN(frame) ((void *)(frame)->prev_instr)
#define NEWEST_OF(state) ((state)->cframe ? (state)->cframe->current_frame : NULL)
#endif

/* ---- The log ---------------------------------------------------------------------------------------------------------- */

enum {
    NOTHING = 0,     /* a record that was taken back */
    MALLOC = 1,      /* id, size */
    CALLOC = 2,      /* id, elements, size of one */
    REALLOC = 3,     /* id, size */
    FREE = 4,        /* id */
    CALL = 5,        /* a new frame: id is the file, a the line */
    LINE = 6,        /* the most recent frame's line */
    RETURN = 7,      /* so many frames are gone */
    FILE_NAME = 8,   /* id, where its text is, its bytes */
    MARK = 9,        /* where its text is, its bytes */
    DAMAGE = 10,     /* id, offset from the data, the eight bytes that are there */
    THREAD_END = 11,
    VANISHED = 12,   /* id: its address came anew, so it went where no hook saw it */
};
enum { RUNNING = 0, ASKED_TO_STOP, LOG_FULL, TOO_MANY_BLOCKS, TOO_MANY_TEXTS, LOCK_LACKING };

#define UNLOCKED 0x80          /* in Record.domain: the caller lacks the interpreter lock */
#define MOST_FRAMES 256        /* of one track, by the format of traces */
#define TEXT_BYTES (4u << 20)
#define MOST_FILES 16384
#define HEADER_BYTES 4096

typedef struct {
    uint8_t kind, domain;
    uint16_t thread;
    uint32_t id;
    uint64_t a, b;
} Record;

typedef struct {
    char magic[8];
    uint64_t version, records, most_records, text_bytes, end, has_debug_hooks, threads;
    uint64_t earlier_frees, earlier_reallocs, nulls, vanished, deep_stacks;
} Header;

static Header *header;
static Record *records;
static char *texts;
static volatile int is_recording;
static int wants_frames;
static pthread_mutex_t mutex = PTHREAD_MUTEX_INITIALIZER;

static void *map_memory(size_t bytes) {
    void *p = mmap(NULL, bytes, PROT_READ | PROT_WRITE, MAP_PRIVATE | MAP_ANONYMOUS | MAP_NORESERVE, -1, 0);
    return p == MAP_FAILED ? NULL : p;
}

static void end_recording(int why) {
    if (is_recording) {
        is_recording = 0;
        header->end = why;
    }
}

/* Writes one record, or none where the recording has ended. The count rises last, so a record that is counted is whole
 * wherever the process dies. */
static Record *put(int kind, int domain, int thread, uint32_t id, uint64_t a, uint64_t b) {
    if (!is_recording) return NULL;
    if (header->records >= header->most_records) {
        end_recording(LOG_FULL);
        return NULL;
    }
    Record *record = &records[header->records];
    *record = (Record){kind, domain, thread, id, a, b};
    __atomic_store_n(&header->records, header->records + 1, __ATOMIC_RELEASE);
    return record;
}

static uint32_t put_text(const char *text, uint32_t bytes) {
    uint32_t at = header->text_bytes;
    memcpy(texts + at, text, bytes);
    header->text_bytes += bytes;
    return at;
}

/* ---- Live blocks by address: a table with open addressing, where a removal moves later entries back ---------------------- */

#define TABLE_BITS 21
#define TABLE_MASK ((1u << TABLE_BITS) - 1)

typedef struct {
    uintptr_t address;
    uint64_t size;
    uint32_t id, domain;
} Block;

static Block *blocks;
static uint64_t live_blocks;
static uint32_t last_id;

/* The blocks of 1 KiB lie side by side in the table too, since those that are near each other are used at about the same time. */
static inline uint32_t home_of(uintptr_t address) {
    uint64_t group = ((uint64_t)(address >> 10) * 0x9E3779B97F4A7C15ull) >> (64 - TABLE_BITS + 6);
    return (uint32_t)(group << 6 | (address >> 4 & 63));
}

static Block *find_block(uintptr_t address) {
    for (uint32_t i = home_of(address); blocks[i].address; i = (i + 1) & TABLE_MASK)
        if (blocks[i].address == address) return &blocks[i];
    return NULL;
}

static void remove_block(Block *block) {
    uint32_t hole = block - blocks;
    for (uint32_t i = (hole + 1) & TABLE_MASK; blocks[i].address; i = (i + 1) & TABLE_MASK) {
        uint32_t home = home_of(blocks[i].address);
        if (((i - home) & TABLE_MASK) >= ((i - hole) & TABLE_MASK)) {
            blocks[hole] = blocks[i];
            hole = i;
        }
    }
    blocks[hole].address = 0;
    live_blocks--;
}

/* Adds a block whose address no other one has. */
static void add_block(uintptr_t address, uint64_t size, uint32_t id, int domain) {
    if (live_blocks >= (uint64_t)TABLE_MASK / 4 * 3) {
        end_recording(TOO_MANY_BLOCKS);
        return;
    }
    uint32_t i = home_of(address);
    while (blocks[i].address) i = (i + 1) & TABLE_MASK;
    blocks[i] = (Block){address, size, id, domain};
    live_blocks++;
}

/* An address comes anew while a block still has it: that block went away where no hook saw it. */
static void drop_vanished(uintptr_t address, int thread) {
    Block *old = find_block(address);
    if (!old) return;
    put(VANISHED, old->domain, thread, old->id, 0, 0);
    header->vanished++;
    remove_block(old);
}

/* ---- Threads ---------------------------------------------------------------------------------------------------------- */

/* What the log says of one frame, and what to compare to see that it has not moved. */
typedef struct {
    Frame *frame;
    void *code, *place, *lines;
    uint32_t file;
    int32_t line;
} LoggedFrame;

typedef struct {
    int depth;           /* calls of hooks that have not returned */
    int number;
    int height;          /* frames that the log has of this thread now, oldest first */
    int hidden;          /* oldest frames that are the recorder's own */
    LoggedFrame *stack;
} Thread;

static pthread_key_t thread_key;
static __thread Thread *this_thread __attribute__((tls_model("initial-exec")));

static void end_thread(void *data) {
    pthread_mutex_lock(&mutex);
    put(THREAD_END, 0, ((Thread *)data)->number, 0, 0, 0);
    pthread_mutex_unlock(&mutex);
}

static Thread *get_thread(void) {
    if (this_thread) return this_thread;
    Thread *thread = map_memory(sizeof(Thread) + sizeof(LoggedFrame) * MOST_FRAMES);
    if (!thread) return NULL;
    thread->stack = (LoggedFrame *)(thread + 1);
    pthread_mutex_lock(&mutex);
    thread->number = (int)(header->threads++ & 0xFFFF);
    pthread_mutex_unlock(&mutex);
    pthread_setspecific(thread_key, thread);
    return this_thread = thread;
}

/* A log belongs to the process that began it: a child of a fork records nothing. */
static void stop_in_child(void) {
    pthread_mutex_init(&mutex, NULL);
    is_recording = 0;
}

/* ---- Frames, read as tracemalloc reads them; nothing here allocates ------------------------------------------------------ */

static struct { uint32_t at, bytes; } files[MOST_FILES];
static uint16_t file_index[MOST_FILES * 2];
static uint32_t file_count;

/* Spells a name of a file in UTF-8, surrogates as if they were characters, and returns how many bytes that takes. */
static uint32_t spell_utf8(PyObject *name, char *out, uint32_t room) {
    if (!name || !PyUnicode_Check(name)) {
        memcpy(out, "<unknown>", 9);
        return 9;
    }
    uint32_t n = 0;
    Py_ssize_t length = PyUnicode_GET_LENGTH(name);
    int kind = PyUnicode_KIND(name);
    void *data = PyUnicode_DATA(name);
    for (Py_ssize_t i = 0; i < length && n + 4 <= room; i++) {
        Py_UCS4 c = PyUnicode_READ(kind, data, i);
        if (c < 0x80) {
            out[n++] = c;
        } else if (c < 0x800) {
            out[n++] = 0xC0 | c >> 6;
            out[n++] = 0x80 | (c & 63);
        } else if (c < 0x10000) {
            out[n++] = 0xE0 | c >> 12;
            out[n++] = 0x80 | (c >> 6 & 63);
            out[n++] = 0x80 | (c & 63);
        } else {
            out[n++] = 0xF0 | c >> 18;
            out[n++] = 0x80 | (c >> 12 & 63);
            out[n++] = 0x80 | (c >> 6 & 63);
            out[n++] = 0x80 | (c & 63);
        }
    }
    return n;
}

/* The number of a file, with its name in the log. */
static uint32_t number_file(PyObject *name, int thread) {
    char text[4096];
    uint32_t bytes = spell_utf8(name, text, sizeof text), hash = 2166136261u;
    for (uint32_t i = 0; i < bytes; i++) hash = (hash ^ (uint8_t)text[i]) * 16777619u;
    uint32_t i = hash % (MOST_FILES * 2);
    for (; file_index[i]; i = (i + 1) % (MOST_FILES * 2)) {
        uint32_t file = file_index[i] - 1;
        if (files[file].bytes == bytes && !memcmp(texts + files[file].at, text, bytes)) return file;
    }
    if (file_count >= MOST_FILES - 1 || header->text_bytes + bytes > TEXT_BYTES) {
        end_recording(TOO_MANY_TEXTS);
        return 0;
    }
    files[file_count].at = put_text(text, bytes);
    files[file_count].bytes = bytes;
    put(FILE_NAME, 0, thread, file_count, files[file_count].at, bytes);
    file_index[i] = file_count + 1;
    return file_count++;
}

static inline Frame *skip_incomplete(Frame *frame) {
    while (frame && _PyFrame_IsIncomplete(frame)) frame = frame->previous;
    return frame;
}

/* The frames of a thread, newest first: at most MOST_FRAMES, those behind the newest left out where there are more. */
static int read_frames(Thread *thread, Frame *newest, Frame **found) {
    int total = -thread->hidden, n = 0;
    for (Frame *f = skip_incomplete(newest); f; f = skip_incomplete(f->previous)) total++;
    int left_out = total > MOST_FRAMES ? total - MOST_FRAMES : 0;
    if (left_out) header->deep_stacks++;
    Frame *frame = skip_incomplete(newest);
    for (int i = 0; i < total; i++, frame = skip_incomplete(frame->previous))
        if (i == 0 || i > left_out) found[n++] = frame;
    return n;
}

static int has_not_moved(const LoggedFrame *logged, Frame *frame) {
    PyCodeObject *code = CODE_OF(frame);
    return logged->frame == frame && logged->code == (void *)code && logged->place == PLACE_IN(frame) &&
           logged->lines == (void *)code->co_linetable;
}

static LoggedFrame log_frame(Frame *frame, int thread) {
    PyCodeObject *code = CODE_OF(frame);
    int line = PyCode_Addr2Line(code, _PyInterpreterFrame_LASTI(frame) * (int)sizeof(_Py_CODEUNIT));
    return (LoggedFrame){frame, code, PLACE_IN(frame), code->co_linetable, number_file(code->co_filename, thread),
                         line < 0 ? 0 : line};
}

/* Brings the stack that the log has of the thread to what it is now, with as few records as do it. */
static void put_frames(Thread *thread, PyThreadState *state) {
    Frame *found[MOST_FRAMES];
    LoggedFrame *old = thread->stack, now[MOST_FRAMES];
    int n = read_frames(thread, NEWEST_OF(state), found), same = 0;
    while (same < n && same < thread->height && has_not_moved(&old[same], found[n - 1 - same])) same++;
    for (int i = same; i < n; i++) now[i] = log_frame(found[n - 1 - i], thread->number);
    int kept = same;
    while (kept < n && kept < thread->height && old[kept].file == now[kept].file && old[kept].line == now[kept].line) kept++;
    int moves_line = kept < n && kept < thread->height && old[kept].file == now[kept].file;
    int gone = thread->height - kept - moves_line;
    if (gone > 0) put(RETURN, 0, thread->number, 0, gone, 0);
    if (moves_line) put(LINE, 0, thread->number, 0, now[kept].line, 0);
    for (int i = kept + moves_line; i < n; i++) put(CALL, 0, thread->number, now[i].file, now[i].line, 0);
    for (int i = same; i < n; i++) old[i] = now[i];
    thread->height = n;
}

/* The caller's thread state where it owns the interpreter lock. In 3.11 the current state is that of whoever owns it. */
static PyThreadState *owning_state(void) {
    PyThreadState *state = _PyThreadState_UncheckedGet();
    return state && PyGILState_GetThisThreadState() == state ? state : NULL;
}

static void tell_frames(Thread *thread) {
    if (!wants_frames || !is_recording) return;
    PyThreadState *state = owning_state();
    if (state) put_frames(thread, state);
}

/* ---- The hooks -------------------------------------------------------------------------------------------------------- */

static PyMemAllocatorEx below[3];

/* Logs eight bytes at an offset of a block, where they are not those of a pad that begins with `first`. */
static int tell_pad(const Block *block, int thread, int64_t offset, uint8_t first) {
    uint8_t pad[8];
    uint64_t bytes;
    memset(pad, 0xFD, 8);
    pad[0] = first;
    memcpy(&bytes, (uint8_t *)block->address + offset, 8);
    if (!memcmp(&bytes, pad, 8)) return 0;
    put(DAMAGE, block->domain, thread, block->id, (uint64_t)offset, bytes);
    return 1;
}

/* Under the debug hooks the domain's letter and pads lie round the data; what else was written there is logged. */
static int tell_damage(const Block *block, int thread) {
    if (!header->has_debug_hooks) return 0;
    int head = tell_pad(block, thread, -8, "rmo"[block->domain]);
    return head | tell_pad(block, thread, (int64_t)block->size, 0xFD);
}

/* A call of the mem or object domain without the interpreter lock may end the process at once. It is the last record. */
static void end_at_unlocked(Thread *thread, int kind, int domain, void *p, uint64_t a, uint64_t b) {
    pthread_mutex_lock(&mutex);
    Block *block = p && is_recording ? find_block((uintptr_t)p) : NULL;
    put(kind, domain | UNLOCKED, thread->number, block ? block->id : ++last_id, a, b);
    end_recording(LOCK_LACKING);
    pthread_mutex_unlock(&mutex);
}

/* The thread, where the call is to be logged: it is no other hook's call, and the recording goes on. */
static Thread *enter(int kind, int domain, void *p, uint64_t a, uint64_t b) {
    Thread *thread = is_recording ? get_thread() : NULL;
    if (!thread || thread->depth) return NULL;
    if (domain != PYMEM_DOMAIN_RAW && !PyGILState_Check()) end_at_unlocked(thread, kind, domain, p, a, b);
    thread->depth++;
    return thread;
}

static void log_new_block(Thread *thread, int kind, int domain, void *p, uint64_t a, uint64_t b) {
    pthread_mutex_lock(&mutex);
    if (is_recording && !p) header->nulls++;
    if (is_recording && p) {
        tell_frames(thread);
        drop_vanished((uintptr_t)p, thread->number);
        put(kind, domain, thread->number, ++last_id, a, b);
        add_block((uintptr_t)p, kind == CALLOC ? a * b : a, last_id, domain);
    }
    pthread_mutex_unlock(&mutex);
}

static void *hook_malloc(void *context, size_t size) {
    int domain = (int)(intptr_t)context;
    Thread *thread = enter(MALLOC, domain, NULL, size, 0);
    void *p = below[domain].malloc(below[domain].ctx, size);
    if (!thread) return p;
    log_new_block(thread, MALLOC, domain, p, size, 0);
    thread->depth--;
    return p;
}

static void *hook_calloc(void *context, size_t elements, size_t size) {
    int domain = (int)(intptr_t)context;
    Thread *thread = enter(CALLOC, domain, NULL, elements, size);
    void *p = below[domain].calloc(below[domain].ctx, elements, size);
    if (!thread) return p;
    log_new_block(thread, CALLOC, domain, p, elements, size);
    thread->depth--;
    return p;
}

/* Takes a block out of the table before the real realloc. Under the debug hooks that call may end the process, so it is
 * logged before it is made: `early` is then its record. */
static Block leave_for_realloc(Thread *thread, int domain, void *p, size_t size, Record **early) {
    Block old = {0};
    pthread_mutex_lock(&mutex);
    Block *block = p && is_recording ? find_block((uintptr_t)p) : NULL;
    if (block) {
        old = *block;
        tell_damage(block, thread->number);
        remove_block(block);
        if (header->has_debug_hooks) {
            tell_frames(thread);
            *early = put(REALLOC, domain, thread->number, old.id, size, 0);
        }
    } else if (p && is_recording) {
        header->earlier_reallocs++;
    }
    pthread_mutex_unlock(&mutex);
    return old;
}

/* Puts the block back where the answer is null, or its successor in. */
static void come_from_realloc(Thread *thread, int domain, const Block *old, void *p, size_t size, Record *early) {
    pthread_mutex_lock(&mutex);
    if (is_recording && !p) {
        header->nulls++;
        if (early) early->kind = NOTHING;
        if (old->address) add_block(old->address, old->size, old->id, old->domain);
    } else if (is_recording) {
        uint32_t id = old->address ? old->id : ++last_id;
        if (!early) tell_frames(thread);
        drop_vanished((uintptr_t)p, thread->number);
        if (!early) put(REALLOC, domain, thread->number, id, size, 0);
        add_block((uintptr_t)p, size, id, domain);
    }
    pthread_mutex_unlock(&mutex);
}

static void *hook_realloc(void *context, void *p, size_t size) {
    int domain = (int)(intptr_t)context;
    Thread *thread = enter(REALLOC, domain, p, size, 0);
    Record *early = NULL;
    if (!thread) return below[domain].realloc(below[domain].ctx, p, size);
    Block old = leave_for_realloc(thread, domain, p, size, &early);
    void *now = below[domain].realloc(below[domain].ctx, p, size);
    come_from_realloc(thread, domain, &old, now, size, early);
    thread->depth--;
    return now;
}

static void hook_free(void *context, void *p) {
    int domain = (int)(intptr_t)context;
    Thread *thread = p ? enter(FREE, domain, p, 0, 0) : NULL;
    if (!thread) {
        below[domain].free(below[domain].ctx, p);
        return;
    }
    pthread_mutex_lock(&mutex);
    Block *block = is_recording ? find_block((uintptr_t)p) : NULL;
    if (block) {
        int will_fault = tell_damage(block, thread->number) || block->domain != (uint32_t)domain;
        if (will_fault) tell_frames(thread);
        put(FREE, domain, thread->number, block->id, 0, 0);
        remove_block(block);
    } else if (is_recording) {
        header->earlier_frees++;
    }
    pthread_mutex_unlock(&mutex);
    below[domain].free(below[domain].ctx, p);
    thread->depth--;
}

static void lay_hooks(void) {
    for (int domain = 0; domain < 3; domain++) {
        PyMemAllocatorEx ours = {(void *)(intptr_t)domain, hook_malloc, hook_calloc, hook_realloc, hook_free};
        PyMem_GetAllocator(domain, &below[domain]);
        PyMem_SetAllocator(domain, &ours);
    }
}

/* Makes the log and lays the hooks; returns what hindered it, or NULL. */
static const char *open_log(const char *path, uint64_t most_records, int with_frames) {
    if (header) return "a process is recorded once";
    size_t bytes = HEADER_BYTES + (size_t)most_records * sizeof(Record) + TEXT_BYTES;
    int fd = open(path, O_RDWR | O_CREAT | O_TRUNC | O_CLOEXEC, 0600);
    if (fd < 0) return "the log cannot be made";
    char *map = ftruncate(fd, bytes) ? MAP_FAILED : mmap(NULL, bytes, PROT_READ | PROT_WRITE, MAP_SHARED, fd, 0);
    close(fd);
    blocks = map_memory(sizeof(Block) << TABLE_BITS);
    if (map == MAP_FAILED || !blocks) return "there is no room for the log";
    header = (Header *)map;
    records = (Record *)(map + HEADER_BYTES);
    texts = map + HEADER_BYTES + most_records * sizeof(Record);
    memcpy(header->magic, "pymlog1", 8);
    header->version = PY_VERSION_HEX;
    header->most_records = most_records;
    const char *allocator = _PyMem_GetCurrentAllocatorName();
    header->has_debug_hooks = allocator && strstr(allocator, "debug");
    wants_frames = with_frames;
    pthread_key_create(&thread_key, end_thread);
    pthread_atfork(NULL, NULL, stop_in_child);
    lay_hooks();
    return NULL;
}

/* ---- The module ------------------------------------------------------------------------------------------------------- */

static PyObject *module_start(PyObject *self, PyObject *arguments) {
    const char *path;
    unsigned long long most_records;
    int with_frames, hidden;
    if (!PyArg_ParseTuple(arguments, "sKpi", &path, &most_records, &with_frames, &hidden)) return NULL;
    const char *hindered = open_log(path, most_records, with_frames);
    if (hindered) {
        PyErr_SetString(PyExc_RuntimeError, hindered);
        return NULL;
    }
    Thread *thread = get_thread();
    if (thread) thread->hidden = hidden;
    is_recording = 1;
    Py_RETURN_NONE;
}

static PyObject *module_hide(PyObject *self, PyObject *frames) {
    Thread *thread = header ? get_thread() : NULL;
    if (thread) thread->hidden = (int)PyLong_AsLong(frames);
    Py_RETURN_NONE;
}

static PyObject *module_stop(PyObject *self, PyObject *none) {
    if (header) {
        pthread_mutex_lock(&mutex);
        end_recording(ASKED_TO_STOP);
        pthread_mutex_unlock(&mutex);
    }
    Py_RETURN_NONE;
}

static PyObject *module_mark(PyObject *self, PyObject *operation) {
    Py_ssize_t bytes;
    const char *text = PyUnicode_AsUTF8AndSize(operation, &bytes);
    if (!text) return NULL;
    Thread *thread = is_recording ? get_thread() : NULL;
    if (thread) {
        pthread_mutex_lock(&mutex);
        if (header->text_bytes + bytes <= TEXT_BYTES) put(MARK, 0, thread->number, 0, put_text(text, bytes), bytes);
        pthread_mutex_unlock(&mutex);
    }
    Py_RETURN_NONE;
}

/* sys._debugmallocstats is silent while the topmost allocator is not pymalloc. */
static PyObject *module_put_aside(PyObject *self, PyObject *aside) {
    static PyMemAllocatorEx topmost[3];
    int is_aside = PyObject_IsTrue(aside);
    for (int domain = 0; domain < 3; domain++) {
        if (is_aside) PyMem_GetAllocator(domain, &topmost[domain]);
        PyMem_SetAllocator(domain, is_aside ? &below[domain] : &topmost[domain]);
    }
    Py_RETURN_NONE;
}

static PyMethodDef methods[] = {
    {"start", module_start, METH_VARARGS, "start(path, most_records, with_frames, hidden_frames)"},
    {"hide", module_hide, METH_O, "hide(frames): so many of the oldest frames of this thread are left out"},
    {"stop", module_stop, METH_NOARGS, "stop(): ends the recording for good"},
    {"mark", module_mark, METH_O, "mark(operation): puts a line such as 'heap' into the trace"},
    {"put_aside", module_put_aside, METH_O, "put_aside(True) puts the hooks aside, put_aside(False) brings them back"},
    {NULL, NULL, 0, NULL}};
static struct PyModuleDef module = {PyModuleDef_HEAD_INIT, "pymhooks", NULL, -1, methods, NULL, NULL, NULL, NULL};

PyMODINIT_FUNC PyInit_pymhooks(void) { return PyModule_Create(&module); }

#ifdef PYMHOOKS_MAIN
/* ---- A python that records from its first allocation: the hooks are laid once Python is pre-initialized ------------------- */

/* Arenas at multiples of their size hold 64 pools each, as those of a replay do. */
static void *map_arena(void *context, size_t bytes) {
    char *p = mmap(NULL, 2 * bytes, PROT_READ | PROT_WRITE, MAP_PRIVATE | MAP_ANONYMOUS, -1, 0);
    if (p == MAP_FAILED) return NULL;
    char *arena = (char *)(((uintptr_t)p + bytes - 1) / bytes * bytes);
    if (arena > p) munmap(p, arena - p);
    munmap(arena + bytes, p + bytes - arena);
    return arena;
}

static void unmap_arena(void *context, void *arena, size_t bytes) { munmap(arena, bytes); }

static void exit_on(PyStatus status) {
    if (PyStatus_Exception(status)) Py_ExitStatusException(status);
}

/* Usage: pymhooks-python EXECUTABLE LOG RECORDS FRAMES SCRIPT ARGUMENT...
 * EXECUTABLE is the interpreter that this one stands for; FRAMES is 1 where frames are logged and 0 where not. */
int main(int count, char **words) {
    if (count < 6) return 2;
    char *executable = words[1], *log = words[2];
    uint64_t most_records = strtoull(words[3], NULL, 10);
    int with_frames = words[4][0] == '1';
    words[4] = executable;
    PyPreConfig preconfig;
    PyPreConfig_InitPythonConfig(&preconfig);
    exit_on(Py_PreInitialize(&preconfig));
    PyImport_AppendInittab("pymhooks", PyInit_pymhooks);
    PyObjectArenaAllocator arenas = {NULL, map_arena, unmap_arena};
    PyObject_SetArenaAllocator(&arenas);
    PyConfig config;
    PyConfig_InitPythonConfig(&config);
    exit_on(PyConfig_SetBytesString(&config, &config.executable, executable));
    exit_on(PyConfig_SetBytesArgv(&config, count - 4, words + 4));
    const char *hindered = open_log(log, most_records, with_frames);
    if (hindered) {
        fprintf(stderr, "pymrecord: %s\n", hindered);
        return 2;
    }
    is_recording = 1;
    PyStatus status = Py_InitializeFromConfig(&config);
    PyConfig_Clear(&config);
    exit_on(status);
    return Py_RunMain();
}
#endif
