/*
 * Aktinoph: lays RV32 and RV64 ELF objects into memory images, and takes installs back, byte for byte.
 *
 * The static library is target/staticlib/libfitter.a, which `tools/build library` writes, for x86-64 Linux.
 * It keeps no state, allocates nothing, and needs nothing but memory functions of the C library (memcpy, memset).
 *
 * What a caller owes; all else is answered:
 *   - No pointer is null, that of an empty buffer neither. An empty buffer is never read or written.
 *   - Each buffer has its whole length, and its bytes can be read: of image, ledger and answers also written.
 *   - The buffers of one call must not overlap.
 *   - No other thread uses image, ledger or answers, or writes object, order or calls, during the call.
 *   - One process at a time works on an image and its ledger, from reading them until both are stored again: there is no lock,
 *     and of two at once one loses its fit without a word. The same holds for the program `aktinoph`.
 *
 * Lengths: any length is answered. A call can be done with an object of at most AKTINOPH_LONGEST bytes, which has at
 * most 128 sections, 8,192 symbols and 32,768 relocations; an order of at most 128 placements and 8,192 outside values; an
 * image of at most AKTINOPH_LONGEST bytes, 0 among them; and a ledger of at least AKTINOPH_LEDGER_HEAD bytes and the old
 * bytes of every standing fit. A ledger of zero bytes is one in which no fit stands. The program `aktinoph` takes files of
 * at most 65,536 bytes: an object that it calls too long can be laid by the library.
 *
 * Classes: the object decides, by its byte 4: 1 is ELF32 (RV32), 2 is ELF64 (RV64). The order is read in the format of
 * that class: counts and the numbers of sections and symbols have four bytes in both; base, addresses and values have
 * four bytes for ELF32 and eight for ELF64. All are little-endian. The ledger is the same for both.
 *
 * Compressed instructions: bit 0 of e_flags, which is at 36 in ELF32 and at 48 in ELF64, says whether the object is for a
 * box that has them. Where it is clear, relocation types 44 and 45 are answered with 9, and a distance of types 16 to 19
 * that is no multiple of 4 with 13. No other bit of e_flags is read. Whether objects of both kinds go together on one box
 * is the caller's matter.
 *
 * Every answer but AKTINOPH_DONE leaves image and ledger as they were, byte for byte. Object, order and calls never
 * change.
 */
#ifndef AKTINOPH_H
#define AKTINOPH_H

#include <stddef.h>
#include <stdint.h>

#ifdef __cplusplus
extern "C" {
#endif

/*
 * The bytes of stack that a call has to find, its own frames and scratch arrays among them. The largest frame is that of a fit,
 * of about 431,000 bytes, most of them scratch arrays for 32,768 relocations; one of about 85,000 bytes stands on it, most
 * of them the values of 8,192 symbols.
 */
#define AKTINOPH_STACK 524288

/* The bytes that an object and an image may have at most. */
#define AKTINOPH_LONGEST 1048576

/* The ledger's bytes before the old bytes: count, 16 entries, count. */
#define AKTINOPH_LEDGER_HEAD 136

/*
 * The numbers. An answer is the first check that fails; a fit checks 1, 4, 2, 3, 5, and from there on in the order of
 * the numbers. The place is 0 where none is named below. Relocations are counted from 0 over all RELA sections that
 * count, by section and then file order.
 */
enum aktinoph_answer {
    AKTINOPH_DONE = 0,                   /* done */
    AKTINOPH_LEDGER_UNSOUND = 1,         /* the ledger is not sound */
    AKTINOPH_ORDER_MALFORMED = 2,        /* the order's bytes are malformed */
    AKTINOPH_WINDOW_BROKEN = 3,          /* image too long, or (fit) the window ends above 2^32 (ELF64: 2^64) */
    AKTINOPH_BAD_HEADER = 4,             /* the ELF header or the object's length is not allowed */
    AKTINOPH_BAD_SECTION = 5,            /* a section header breaks a rule; place: section, or 0 for the whole table */
    AKTINOPH_PLACEMENTS_DIFFER = 6,      /* only placed, or only allocated; place: the lowest such section */
    AKTINOPH_WRONG_EXTERNAL = 7,         /* a value for a symbol that is not undefined; place: lowest such symbol */
    AKTINOPH_MISPLACED = 8,              /* misaligned, outside the window, or overlapping; place: section */
    AKTINOPH_RELOCATION_SHAPE = 9,       /* type, offset, overlap or addend is not allowed; place: relocation */
    AKTINOPH_SYMBOL_UNRESOLVED = 10,     /* the symbol does not resolve; place: relocation; its reason is below */
    AKTINOPH_WRONG_INSTRUCTION = 11,     /* not an instruction that the type is for; place: relocation */
    AKTINOPH_NOT_ONE_PAIR = 12,          /* a PCREL_LO12 without exactly one PCREL_HI20; place: relocation */
    AKTINOPH_OUT_OF_REACH = 13,          /* distance odd, too far, no multiple of 4, (ELF64) HI20 too far; place: relocation */
    AKTINOPH_PADDING_OFF_BOUNDARY = 14,  /* ALIGN's padding does not end on its boundary; place: relocation */
    AKTINOPH_LEDGER_FULL = 15,           /* the ledger has 16 fits, or no room for the old bytes */
    AKTINOPH_NOTHING_STANDS = 16         /* no fit stands (take-back only) */
};

/*
 * The reasons of AKTINOPH_SYMBOL_UNRESOLVED: the first that applies. Every other answer has 0 there. The symbol's section is
 * looked at before its type. Symbol 0 always has its value, so that only the last can apply to it.
 */
enum aktinoph_reasons {
    AKTINOPH_SYMBOL_PAST_TABLE = 1,      /* the symbol table has no symbol with this number */
    AKTINOPH_SYMBOL_NOT_ALLOCATED = 2,   /* its section, 1 to 0xFEFF, is missing or not allocated */
    AKTINOPH_SYMBOL_COMMON = 3,          /* it is common (section 0xFFF2) */
    AKTINOPH_SYMBOL_RESERVED = 4,        /* its section is 0xFF00 or above, and neither 0xFFF1 nor 0xFFF2 */
    AKTINOPH_SYMBOL_UNDEFINED = 5,       /* it is undefined and not weak, and the order has no value for it */
    AKTINOPH_SYMBOL_WRONG_TYPE = 6,      /* it is of type TLS or IFUNC */
    AKTINOPH_SYMBOL_NOT_IN_TARGET = 7    /* a PCREL_LO12: it is not in the section that the relocation patches */
};

/*
 * Lays the object's sections into the image as the order says, with relocations applied, and records the old bytes
 * in the ledger. Answers 0 to 15.
 */
uint64_t aktinoph_fit(const uint8_t *object, size_t object_len, const uint8_t *order, size_t order_len,
                      uint8_t *image, size_t image_len, uint8_t *ledger, size_t ledger_len);

/* Takes the newest standing fit back: writes its old bytes into the image. Answers 0, 1, 3 or 16. */
uint64_t aktinoph_take_back(uint8_t *image, size_t image_len, uint8_t *ledger, size_t ledger_len);

/* What a list of calls has before a fit, and before a taking-back. */
#define AKTINOPH_CALL_FIT 1
#define AKTINOPH_CALL_TAKE_BACK 2

/*
 * Makes a list of calls on image and ledger, one after the other. The list's bytes are the count of calls, and then
 * each call: its kind, and of a fit the object and the order, each after its length. Nothing follows. Count, kinds and
 * lengths are four bytes, little-endian.
 *
 * Returns 1 where the list was run: answers begins with the answer of each call in turn, and its other places are as
 * they were. A refused call changes nothing, and the next one is made all the same. Returns 0 where the bytes are
 * malformed, or answers has fewer places than the list has calls: then image, ledger and answers are as they were.
 * answers_len counts places, and not bytes.
 */
uint64_t aktinoph_replay(const uint8_t *calls, size_t calls_len, uint8_t *image, size_t image_len,
                         uint8_t *ledger, size_t ledger_len, uint64_t *answers, size_t answers_len);

/* The number of an answer: its low eight bits. */
static inline unsigned aktinoph_number(uint64_t answer) { return (unsigned)(answer & 0xFF); }

/* The reason of an answer: the eight bits above the number. Bits 16 to 31 are 0. */
static inline unsigned aktinoph_reason(uint64_t answer) { return (unsigned)(answer >> 8 & 0xFF); }

/* The place of an answer: its upper 32 bits. */
static inline uint32_t aktinoph_place(uint64_t answer) { return (uint32_t)(answer >> 32); }

#ifdef __cplusplus
}
#endif

#endif
