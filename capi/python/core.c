/* gaxtrel._core: the calls of the library, by Python's stable ABI. The GIL is the lock: no other thread runs from where
   a call looks at what is held to where it has its answer. */
#define PY_SSIZE_T_CLEAN
#define Py_LIMITED_API 0x030B0000
#include <Python.h>

#include "gaxtrel.h"

/* What the library holds for an object: a matcher or a session. Python zeroes both, which are none then. */
typedef struct {
    PyObject_HEAD
    gaxtrel_matcher matcher;
    gaxtrel_session session;
} Held;

#define MATCHER(self) (&((Held *)(self))->matcher)
#define SESSION(self) (&((Held *)(self))->session)

static PyObject *close_held(PyObject *self, PyObject *words) {
    gaxtrel_free(MATCHER(self));
    gaxtrel_session_free(SESSION(self));
    return Py_NewRef(Py_None);
}

static PyObject *enter(PyObject *self, PyObject *none) { return Py_NewRef(self); }

static void dealloc(PyObject *self) {
    PyTypeObject *type = Py_TYPE(self);
    gaxtrel_free(MATCHER(self));
    gaxtrel_session_free(SESSION(self));
    ((freefunc)PyType_GetSlot(type, Py_tp_free))(self);
    Py_DECREF(type);
}

#define HELD_METHODS                                                                                                   \
    {"close", close_held, METH_NOARGS, "Frees what is held; nothing can be asked for afterwards."},                    \
    {"__enter__", enter, METH_NOARGS, NULL}, {"__exit__", close_held, METH_VARARGS, NULL}

/* Two words of a call, of a Py_buffer. */
#define TEXT(buffer) (buffer).buf, (size_t)(buffer).len

/* What a call raises that may take more work than its limit. */
static PyObject *stopped;

/* The library's answer: whether it is yes; or less than 0, and an error. */
static int judged(uint32_t answer) {
    if (answer == GAXTREL_NO || answer == GAXTREL_YES) return (int)answer;
    if (answer == GAXTREL_NO_MEMORY) PyErr_NoMemory();
    else if (answer == GAXTREL_STOPPED) PyErr_SetString(stopped, "it may take more than its limit");
    else PyErr_SetString(PyExc_ValueError, answer == GAXTREL_JOINED ? "its patterns are joined" : "it is closed");
    return -1;
}

static PyObject *work_of(const gaxtrel_work *work) {
    return Py_BuildValue("KKK", work->built, work->reused, work->passed);
}

/* Patterns. */

static PyObject *compile(PyObject *self, PyObject *words) {
    PyObject *pattern;
    unsigned syntax;
    int fold, whole, several, apart;
    gaxtrel_fault fault;
    if (!PyArg_ParseTuple(words, "SIpppp", &pattern, &syntax, &fold, &whole, &several, &apart)) return NULL;
    int refused = judged((apart ? gaxtrel_compile_each : several ? gaxtrel_compile_lines : gaxtrel_compile)(
        MATCHER(self), (const uint8_t *)PyBytes_AsString(pattern), PyBytes_Size(pattern), syntax, fold, whole, &fault));
    if (refused <= 0) return refused ? NULL : Py_NewRef(Py_None);
    return Py_BuildValue("snn", gaxtrel_kind_name(fault.kind), fault.at, fault.pattern);
}

static PyObject *limit(PyObject *self, PyObject *work) {
    unsigned long long most = PyLong_AsUnsignedLongLong(work);
    if (PyErr_Occurred()) return NULL;
    return judged(gaxtrel_limit(MATCHER(self), most)) < 0 ? NULL : Py_NewRef(Py_None);
}

static PyObject *matcher_work(PyObject *self, PyObject *none) { return work_of(&MATCHER(self)->work); }

static PyObject *is_match(PyObject *self, PyObject *line) {
    Py_buffer text;
    if (PyObject_GetBuffer(line, &text, PyBUF_SIMPLE)) return NULL;
    int matched = judged(gaxtrel_is_match(MATCHER(self), TEXT(text)));
    PyBuffer_Release(&text);
    return matched < 0 ? NULL : PyBool_FromLong(matched);
}

static PyObject *count_lines(PyObject *self, PyObject *lines) {
    Py_buffer text;
    uint64_t count;
    if (PyObject_GetBuffer(lines, &text, PyBUF_SIMPLE)) return NULL;
    int found = judged(gaxtrel_count_lines(MATCHER(self), TEXT(text), &count));
    PyBuffer_Release(&text);
    return found < 0 ? NULL : PyLong_FromUnsignedLongLong(count);
}

static PyObject *which(PyObject *self, PyObject *line) {
    Py_buffer text;
    size_t first[64], *numbers = first, room = 64, count = 0;
    if (PyObject_GetBuffer(line, &text, PyBUF_SIMPLE)) return NULL;
    int matched = judged(gaxtrel_which(MATCHER(self), TEXT(text), numbers, room, &count));
    if (count > room) {
        numbers = PyMem_Malloc((room = count) * sizeof *numbers);
        matched = judged(numbers ? gaxtrel_which(MATCHER(self), TEXT(text), numbers, room, &count) : GAXTREL_NO_MEMORY);
    }
    PyBuffer_Release(&text);
    PyObject *list = matched < 0 ? NULL : PyList_New((Py_ssize_t)count), *number;
    for (size_t k = 0; list && k < count; k++) {
        if ((number = PyLong_FromSize_t(numbers[k]))) PyList_SetItem(list, (Py_ssize_t)k, number);
        else Py_CLEAR(list);
    }
    if (numbers != first) PyMem_Free(numbers);
    return list;
}

/* A gaxtrel.Match, which is a named tuple. */
static PyObject *new_match(PyObject *string, gaxtrel_part part) {
    static PyObject *type;
    PyObject *made, *module, *places[2] = {0};
    if (!type && (module = PyImport_ImportModule("gaxtrel"))) type = PyObject_GetAttrString(module, "Match");
    if (!type || !(made = PyType_GenericAlloc((PyTypeObject *)type, 3))) return NULL;
    PyTuple_SetItem(made, 0, Py_NewRef(string));
    PyTuple_SetItem(made, 1, places[0] = PyLong_FromSize_t(part.start));
    PyTuple_SetItem(made, 2, places[1] = PyLong_FromSize_t(part.end));
    if (!places[0] || !places[1]) Py_CLEAR(made);
    return made;
}

enum { PART, WHOLE, LINE };

/* What comes next from a place on: a part; the whole line, which may be empty, if it is matched; or a line. */
static PyObject *next(int what, PyObject *self, PyObject *line, size_t start) {
    Py_buffer text;
    gaxtrel_part part = {0, 0};
    if (!line || PyObject_GetBuffer(line, &text, PyBUF_SIMPLE)) return NULL;
    size_t length = (size_t)text.len;
    int found = judged(what == LINE                   ? gaxtrel_next_line(MATCHER(self), TEXT(text), start, &part)
                       : what == WHOLE && length == 0 ? gaxtrel_is_match(MATCHER(self), TEXT(text))
                                                     : gaxtrel_find(MATCHER(self), TEXT(text), start, &part));
    PyBuffer_Release(&text);
    if (found > 0 && !(what == WHOLE && (part.start > 0 || part.end < length))) return new_match(line, part);
    return found < 0 ? NULL : Py_NewRef(Py_None);
}

#define WORDS PyObject *self, PyObject *const *words, Py_ssize_t count, PyObject *named

/* Reads a text, or none and an error, and a place, any number: those after the end are alike. */
static PyObject *read_words(PyObject *const *words, Py_ssize_t count, PyObject *named, size_t *start) {
    Py_ssize_t all = count + (named ? PyTuple_Size(named) : 0);
    if (count < 1 || all > 2 || (all > count && PyUnicode_CompareWithASCIIString(PyTuple_GetItem(named, 0), "start")))
        return PyErr_Format(PyExc_TypeError, "a text is wanted, and perhaps a start");
    Py_ssize_t at = all == 2 ? PyNumber_AsSsize_t(words[1], NULL) : 0;
    *start = at < 0 ? 0 : (size_t)at;
    return at == -1 && PyErr_Occurred() ? NULL : words[0];
}

static PyObject *fullmatch(PyObject *self, PyObject *line) { return next(WHOLE, self, line, 0); }

static PyObject *search(WORDS) {
    size_t start;
    PyObject *line = read_words(words, count, named, &start);
    return next(PART, self, line, start);
}

static PyObject *next_line(WORDS) {
    size_t start;
    PyObject *text = read_words(words, count, named, &start);
    return next(LINE, self, text, start);
}

static PyObject *matches(PyObject *line, const gaxtrel_part *parts, size_t count) {
    PyObject *list = PyList_New((Py_ssize_t)count), *match, *all;
    for (size_t k = 0; list && k < count; k++) {
        if ((match = new_match(line, parts[k]))) PyList_SetItem(list, (Py_ssize_t)k, match);
        else Py_CLEAR(list);
    }
    all = list ? PyObject_GetIter(list) : NULL;
    Py_XDECREF(list);
    return all;
}

static PyObject *finditer(WORDS) {
    Py_buffer text;
    gaxtrel_part first[64], *parts = first;
    size_t start, room = 64, found = 0;
    PyObject *line = read_words(words, count, named, &start);
    if (!line || PyObject_GetBuffer(line, &text, PyBUF_SIMPLE)) return NULL;
    int matched = judged(gaxtrel_parts(MATCHER(self), TEXT(text), start, parts, room, &found));
    if (found > room) {
        parts = PyMem_Malloc((room = found) * sizeof *parts);
        matched = judged(parts ? gaxtrel_parts(MATCHER(self), TEXT(text), start, parts, room, &found)
                               : GAXTREL_NO_MEMORY);
    }
    PyBuffer_Release(&text);
    PyObject *all = matched < 0 ? NULL : matches(line, parts, found < room ? found : room);
    if (parts != first) PyMem_Free(parts);
    return all;
}

#define SEARCH(call) (PyCFunction)(void (*)(void))(call), METH_FASTCALL | METH_KEYWORDS

static PyMethodDef matcher_methods[] = {
    HELD_METHODS,
    {"_compile", compile, METH_VARARGS, NULL},
    {"_work", matcher_work, METH_NOARGS, NULL},
    {"_next_line", SEARCH(next_line), NULL},
    {"limit", limit, METH_O,
     "How much work a call may take, in steps and as many bytes; 0 is no limit. One that may take more is Stopped."},
    {"is_match", is_match, METH_O, "Whether the line is matched."},
    {"which", which, METH_O,
     "The numbers of the patterns that match the line, from 0. Lines of `compile_lines` need its `apart`."},
    {"fullmatch", fullmatch, METH_O, "The line, if all of it is matched."},
    {"search", SEARCH(search),
     "The matched part that begins earliest from a place on, and of those the longest. It is not empty."},
    {"finditer", SEARCH(finditer),
     "All parts of the line from a place on, each searched from the end of the one before. They are found at once, in\n"
     "time linear in the line; where memory for that is refused it raises a MemoryError."},
    {"count_lines", count_lines, METH_O, "How many lines of a text are matched."},
    {0}};

/* Sessions. */

static PyObject *open_session(PyObject *self, PyObject *states) {
    Py_ssize_t count = PyNumber_AsSsize_t(states, NULL);
    if (count == -1 && PyErr_Occurred()) return NULL;
    uint32_t answer = gaxtrel_session_open(SESSION(self), (size_t)count);
    if (answer == GAXTREL_NO_STATES) return PyErr_Format(PyExc_ValueError, "%R states", states);
    return judged(answer) < 0 ? NULL : Py_NewRef(Py_None);
}

/* The replies, and the work; or the error. */
static PyObject *replies(PyObject *self, uint32_t answer, size_t count) {
    if (judged(answer) < 0) return NULL;
    gaxtrel_work work = SESSION(self)->work;
    PyObject *text = PyBytes_FromStringAndSize(NULL, (Py_ssize_t)count);
    if (!text) return NULL;
    gaxtrel_session_replies(SESSION(self), 0, (uint8_t *)PyBytes_AsString(text), count, &count);
    return Py_BuildValue("NN", text, work_of(&work));
}

static PyObject *answer(PyObject *self, PyObject *commands) {
    Py_buffer text;
    size_t count = 0;
    if (PyObject_GetBuffer(commands, &text, PyBUF_SIMPLE)) return NULL;
    uint32_t answered = gaxtrel_session_answer(SESSION(self), TEXT(text), &count);
    PyBuffer_Release(&text);
    return replies(self, answered, count);
}

static PyObject *edit(PyObject *self, PyObject *words) {
    Py_buffer command, lines;
    size_t count = 0;
    if (!PyArg_ParseTuple(words, "y*y*", &command, &lines)) return NULL;
    uint32_t answered = gaxtrel_session_edit(SESSION(self), TEXT(command), TEXT(lines), &count);
    PyBuffer_Release(&command);
    PyBuffer_Release(&lines);
    if (answered == GAXTREL_MISUSED)
        return PyErr_Format(PyExc_ValueError, "it is closed, or that isn't one command with the lines that it counts");
    return replies(self, answered, count);
}

static PyMethodDef session_methods[] = {
    HELD_METHODS, {"_open", open_session, METH_O, NULL}, {"_answer", answer, METH_O, NULL},
    {"_edit", edit, METH_VARARGS, NULL}, {0}};

static int add_type(PyObject *module, const char *name, PyMethodDef *methods) {
    PyType_Slot slots[] = {{Py_tp_dealloc, dealloc}, {Py_tp_methods, methods}, {0}};
    PyType_Spec spec = {name, sizeof(Held), 0, Py_TPFLAGS_DEFAULT | Py_TPFLAGS_BASETYPE, slots};
    PyObject *type = PyType_FromSpec(&spec);
    return type ? PyModule_AddType(module, (PyTypeObject *)type) : -1;
}

PyMODINIT_FUNC PyInit__core(void) {
    static PyModuleDef core = {PyModuleDef_HEAD_INIT, "gaxtrel._core", NULL, -1, NULL, NULL, NULL, NULL, NULL};
    PyObject *module = PyModule_Create(&core);
    stopped = PyErr_NewExceptionWithDoc("gaxtrel.Stopped", "A call may take more work than its limit.", NULL, NULL);
    if (module && (PyModule_AddStringConstant(module, "__version__", GAXTREL_VERSION) ||
                   PyModule_AddObjectRef(module, "Stopped", stopped) ||
                   add_type(module, "gaxtrel._core.Matcher", matcher_methods) ||
                   add_type(module, "gaxtrel._core.Session", session_methods)))
        Py_CLEAR(module);
    return module;
}
