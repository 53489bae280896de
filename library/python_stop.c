/* Whether a handler of signals of Python's raised an exception, as it does on Ctrl-C. Python itself is looked for where
 * this is called, so the library is no extension of one version of Python. Handlers run in the main thread alone. */
#include "trinorm.h"

struct object;
#ifdef __ELF__
extern int PyGILState_Ensure(void) __attribute__((weak));
extern void PyGILState_Release(int) __attribute__((weak));
extern int PyErr_CheckSignals(void) __attribute__((weak));
extern void PyErr_Fetch(struct object **, struct object **, struct object **) __attribute__((weak));
extern void PyErr_Restore(struct object *, struct object *, struct object *) __attribute__((weak));
extern void PyErr_Clear(void) __attribute__((weak));
#else
/* Elsewhere no name is weak as it is there, so Python gives the addresses of its functions. */
static struct {
    int (*ensure)(void);
    void (*release)(int);
    int (*check_signals)(void);
    void (*fetch)(struct object **, struct object **, struct object **);
    void (*restore)(struct object *, struct object *, struct object *);
    void (*clear)(void);
} python;
#define PyGILState_Ensure python.ensure
#define PyGILState_Release python.release
#define PyErr_CheckSignals python.check_signals
#define PyErr_Fetch python.fetch
#define PyErr_Restore python.restore
#define PyErr_Clear python.clear

/* Takes the addresses of these functions, in that order. */
void trinorm_python_is(void *const *functions) {
    void **to = (void **)&python;
    for (unsigned i = 0; i < sizeof python / sizeof *to; i++)
        to[i] = functions[i];
}
#endif

/* the exception that ended the call of this thread */
static _Thread_local struct object *type, *value, *traceback;

/* Releases an older exception that nobody has raised; the caller holds Python's lock. */
static void drop(void) {
    if (type) {
        PyErr_Restore(type, value, traceback);
        PyErr_Clear();
    }
    type = value = traceback = 0;
}

/* As `stop` of limits. */
int trinorm_python_stops(void *unused) {
    (void)unused;
    if (!PyGILState_Ensure || !PyGILState_Release || !PyErr_CheckSignals || !PyErr_Fetch || !PyErr_Restore || !PyErr_Clear)
        return 0;
    int state = PyGILState_Ensure();
    int raised = PyErr_CheckSignals() != 0;
    if (raised) {
        struct object *new_type, *new_value, *new_traceback;
        PyErr_Fetch(&new_type, &new_value, &new_traceback);
        drop();
        type = new_type;
        value = new_value;
        traceback = new_traceback;
    }
    PyGILState_Release(state);
    return raised;
}

/* Raises that exception; the caller holds Python's lock, and looks whether one was raised. */
void trinorm_python_raises(void) {
    if (type)
        PyErr_Restore(type, value, traceback);
    type = value = traceback = 0;
}
