/* The checker, the stepper and the claim writer of panel programs for programs in C and C++: link target/staticlib/libcapi.a (`capi/library` builds it).
 *
 * Every function may be called with any bytes: it tests for itself all that it relies on, ends, uses no heap, keeps nothing between calls
 * and may be called from several threads at once. docs/FORMATS.md says what texts, answers and memory mean.
 *
 * The caller's part, which no function can test:
 * - Each pointer leads to as many elements as the length after it says, aligned as its type asks. With a length of 0 it is not used, and
 *   may be null.
 * - Slices that are lent for writing (frames, objects, statics, memory, answer) overlap neither each other nor a text. Buffers that
 *   overlap are the caller's fault: nothing is promised then of any of them.
 * - There is stack enough: 100 KB for hudzmoke_check and hudzmoke_write_claim, 20 KB for the others (measured).
 */
#ifndef HUDZMOKE_H
#define HUDZMOKE_H

#include <stddef.h>
#include <stdint.h>

#ifdef __cplusplus
extern "C" {
#endif

/* A value: number z has object 0 and number z; object k has object k + 1 and number 0. */
typedef struct {
    uint32_t object;
    int32_t number;
} hudzmoke_value;

/* A call frame. */
typedef struct {
    uint32_t method;
    uint32_t address;
    hudzmoke_value registers[16];
    hudzmoke_value result;
} hudzmoke_frame;

/* An object: the number of its class, and field f in cell f. */
typedef struct {
    uint32_t class_number;
    hudzmoke_value cells[16];
} hudzmoke_object;

/* The least lengths to lend, in elements; HUDZMOKE_CLAIM is the length of the longest claim that is written. With fewer frames, objects,
 * statics or bytes the number is HUDZMOKE_SHORT, with fewer words the answer is not written. */
enum {
    HUDZMOKE_FRAMES = 32,
    HUDZMOKE_OBJECTS = 256,
    HUDZMOKE_STATICS = 16,
    HUDZMOKE_MEMORY = 24576,
    HUDZMOKE_CLAIM = 165936,
    HUDZMOKE_ANSWER = 5
};

/* The numbers that the functions give. A refusal of a text comes with its line, from 1; 0 for a text that is too long. */
enum {
    HUDZMOKE_READ = 0, /* hudzmoke_read: a program */

    /* The program text is refused. */
    HUDZMOKE_PROGRAM_TOO_LONG = 1,      /* over 65,536 bytes */
    HUDZMOKE_PROGRAM_BAD_LINE = 2,      /* another byte than 0 to 9 and a to f, an odd count of digits, an empty line, no line end */
    HUDZMOKE_PROGRAM_BAD_FRAME = 3,     /* unknown kind or wrong length */
    HUDZMOKE_PROGRAM_OUT_OF_ORDER = 4,  /* a frame out of order, or a count outside its limits (classes are 5 to 60) */
    HUDZMOKE_PROGRAM_BAD_VALUE = 5,     /* a field value that is not allowed (classes 2 to 4 stand directly below class 1) */
    HUDZMOKE_PROGRAM_FALLS_THROUGH = 6, /* the last instruction of a method is no goto, return or throw */

    /* The claim text is refused. */
    HUDZMOKE_CLAIM_TOO_LONG = 9,      /* over 262,144 bytes */
    HUDZMOKE_CLAIM_BAD_LINE = 10,     /* as HUDZMOKE_PROGRAM_BAD_LINE */
    HUDZMOKE_CLAIM_UNKNOWN_KIND = 11, /* a frame of unknown kind */
    HUDZMOKE_CLAIM_NOT_DUE = 12,      /* not the frame due, one too many, or one missing */
    HUDZMOKE_CLAIM_BAD_BIT = 13,      /* a mask has a bit that is not allowed */

    /* Refused for the state. 20 and 21: the step is neither made nor counted. */
    HUDZMOKE_FULL_STORE = 20, /* an object more at 256 objects: new-instance, or an instruction that raises one */
    HUDZMOKE_FULL_STACK = 21, /* a call at 32 frames that neither faults nor raises */
    HUDZMOKE_STEPS_MADE = 22, /* the steps asked for are made, and the run has not ended */
    HUDZMOKE_SHORT = 23,      /* too little memory is lent, or less than a text has; it is untouched */
    HUDZMOKE_OUTSIDE = 24,    /* an address outside its method */

    /* The run has ended. */
    HUDZMOKE_DONE = 32,     /* the last frame returned */
    HUDZMOKE_UNCAUGHT = 33, /* the last frame was dropped: no handler took the pending object */

    /* The claim is judged. */
    HUDZMOKE_ACCEPTED = 34, /* it meets every flow rule */
    HUDZMOKE_VIOLATED = 35, /* it breaks one */

    HUDZMOKE_WRITTEN = 36, /* a text is written */

    /* The run has ended by a fault, 2, 3, 5, 6 or 7: 40 and its number. Null used as an object, division by zero and a failed cast are
     * exceptions. */
    HUDZMOKE_FAULT = 40,
    HUDZMOKE_NUMBER_AS_OBJECT = 42, /* a number other than zero stands where an object must */
    HUDZMOKE_OBJECT_AS_NUMBER = 43, /* an object stands where a number must */
    HUDZMOKE_FIELD_NOT_HAD = 45,    /* the object's class does not have the field */
    HUDZMOKE_NO_METHOD = 46,        /* a virtual call finds no method */
    HUDZMOKE_NOT_THROWABLE = 47     /* throw of an object that is no Throwable */
};

/* The classes of the objects that an instruction raises itself. Every panel has them, each directly below class 1, Throwable. */
enum {
    HUDZMOKE_NULL_CLASS = 2,       /* null stands where an object must */
    HUDZMOKE_ARITHMETIC_CLASS = 3, /* div or rem by zero */
    HUDZMOKE_CAST_CLASS = 4        /* check-cast of an object whose class is not at or below the named one */
};

/* Reads a program text: HUDZMOKE_READ, or the number of its refusal. The answer's words: that number; the line, or 0; 0; 0; 0. */
uint64_t hudzmoke_read(const uint8_t *text, size_t text_length,
                       uint64_t *answer, size_t answer_length);

/* Checks a claim about a program; the number of the verdict. The answer's words: that number; the count of calls, the rule or the line; the
 * method; the address; 0. Words without a value are 0. If the claim is accepted, the calls stand at the front of memory, three bytes each:
 * caller, address, callee. Nothing past them is touched, and nothing at all if the verdict is another. */
uint64_t hudzmoke_check(const uint8_t *program, size_t program_length,
                        const uint8_t *claim, size_t claim_length,
                        uint8_t *memory, size_t memory_length,
                        uint64_t *answer, size_t answer_length);

/* Writes a claim about a program: the least one that hudzmoke_check accepts. The number of what came of it. The answer's words: that number;
 * the text's length or the line; 0; 0; 0. The text stands at the front of memory, and nothing past it is touched; nothing at all if the
 * program is refused or memory is shorter than the text. No text has more bytes than HUDZMOKE_CLAIM. */
uint64_t hudzmoke_write_claim(const uint8_t *program, size_t program_length,
                              uint8_t *memory, size_t memory_length,
                              uint64_t *answer, size_t answer_length);

/* Runs a program for at most n steps (more than 1,000,000 count as that); the number of what became of it. The answer's words: that number;
 * the steps made, or the line; the pending object and 1, or 0; open frames; objects. Words without a value are 0. The slices hold the state
 * after these steps, the bottom frame first, objects in order of making; up to the least lengths what is not used is zero, and what lies
 * beyond is untouched. Refused or with too little memory, they are untouched. */
uint64_t hudzmoke_step(const uint8_t *text, size_t text_length, uint64_t n,
                       hudzmoke_frame *frames, size_t frames_length,
                       hudzmoke_object *objects, size_t objects_length,
                       hudzmoke_value *statics, size_t statics_length,
                       uint64_t *answer, size_t answer_length);

#ifdef __cplusplus
}
#endif

#endif
