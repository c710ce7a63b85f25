/* Jirvents for C: records spread over storage nodes by a Read-Write erasure code. Any r of n nodes give a record's message back, and a change of the message
 * goes out to any w nodes without reading them. Link with crates/jirvents/out/libjirvents.a, which `rt lib` makes in crates/jirvents, for Linux alone, on x86-64-v2.
 *
 * A code has k message parts, r nodes to read, w nodes to write and n nodes, with r + w at least k + n, and b bytes in a block. A message is k parts of b
 * bytes, a slack n - w parts (any bytes), a codeword n blocks, that of node 1 first. A node set is a number of 32 bits in which node i is worth 2^(i-1).
 * Message and slack together have q = k + n - w parts, at most r: of the r nodes that a function is given to read it uses the blocks of the q lowest, whatever
 * blocks the others hold. After an encode, and any updates and repairs with no damage, whoever steals n - w nodes or fewer, all at one time, learns nothing of
 * the message from their blocks, if each byte of the slack was drawn anew for each encode, all 256 values equally likely whatever the other bytes, the message
 * and the calls are, from a source that nobody can predict, and is kept secret. Where w = n there is no slack, and one node tells something (README, "If nodes
 * are stolen").
 *
 * Bytes are elements of the field with 256 elements: their sum is exclusive or, their product that of polynomials modulo z^8 + z^4 + z^3 + z^2 + 1 (11D). A
 * change is the old message xor the new one, and what it adds to a block is xored into it.
 *
 * Each node has a serial, kept beside the codeword as n numbers, that of node 1 first, which are 0 after an encode. A change goes out under a serial of its
 * own, 1 or more and above those of all changes before it, and to those of its w nodes that can be reached. A node adds its part only if that serial is above
 * its own, and takes the serial with it. So a send that broke off is repeated: the same change through the same set under the same serial, until each of the w
 * nodes was reached. No node adds it twice, whichever had it before. A caller has to see to it that until then nothing else is sent, read, rebuilt or
 * rearranged (damage may happen; a check may then blame sound nodes), and that a change that reached all w nodes is not sent again once anything else was
 * written. No question is put about this.
 *
 * Every number, set and length may be given. Each function puts its questions, told by their numbers at its declaration, and answers 0 (JIRVENTS_SERVED), or
 * the number of the first whose answer is no; it then writes nothing, but for the column that goes with 15. The questions are put in the order of the enum
 * below, which is not that of the numbers: 1 to 5, 11 to 14, 16, 6, 7, 8, 24, 9, 10, 15.
 *
 * A slice is a pointer and a length, which counts bytes, and for serials numbers. Its pointer must be valid for that many (and not null, also for length 0),
 * that of serials also aligned for uint32_t, and slices that are written must not overlap others. The pointers set, tried, distance, start and column must be
 * valid, aligned, not null, and apart from every slice and from each other. No function allocates, keeps a pointer or has any state. Until a function returns,
 * no other thread may write what it was lent or use what it writes; calls on buffers of their own may run at once. Each takes its room on the stack: up to 55
 * kB (check), 54 (reconfigure), 53 (repair), 51 (encode), 21 (update, delta), 19 (decode), 3 (invert). */
#ifndef JIRVENTS_H
#define JIRVENTS_H

#include <stddef.h>
#include <stdint.h>

#ifdef __cplusplus
extern "C" {
#endif

/* The answers, in the order in which the questions are put. */
enum {
    JIRVENTS_SERVED = 0,
    JIRVENTS_BAD_N = 1,          /* is n from 1 to 32? */
    JIRVENTS_BAD_R_W = 2,        /* are r and w at most n? */
    JIRVENTS_BAD_K = 3,          /* is k at least 1, at most r and at most w? */
    JIRVENTS_BAD_SUM = 4,        /* is r + w at least k + n? */
    JIRVENTS_BAD_B = 5,          /* is b from 1 to 1,024? */
    JIRVENTS_BAD_NEW_N = 11,     /* 1 for the new parameters */
    JIRVENTS_BAD_NEW_R_W = 12,   /* 2 for the new parameters */
    JIRVENTS_BAD_NEW_K = 13,     /* 3 for the new parameters */
    JIRVENTS_BAD_NEW_SUM = 14,   /* 4 for the new parameters */
    JIRVENTS_BAD_SIDE = 16,      /* is the matrix's side from 1 to 32? */
    JIRVENTS_BAD_LENGTH = 6,     /* has each slice its exact length? */
    JIRVENTS_BAD_SET = 7,        /* does each node set name only nodes up to its n? */
    JIRVENTS_BAD_SIZE = 8,       /* is the set to read of size r, and the set to write of size w (for reconfigure, the new w)? */
    JIRVENTS_BAD_SERIAL = 24,    /* is the serial above 0? */
    JIRVENTS_LOST_IS_READ = 9,   /* are the lost nodes apart from those read? */
    JIRVENTS_BAD_NODE = 10,      /* is the node from 1 to n? */
    JIRVENTS_SINGULAR = 15       /* has the matrix an inverse? */
};

/* Writes the codeword (n*b bytes) of a message (k*b bytes) and a slack ((n-w)*b bytes), and 0 to each of the n serials, whatever both held. Questions 1 to 6. */
uint32_t jirvents_encode(size_t k, size_t r, size_t w, size_t n, size_t b, const uint8_t *message, size_t message_len, const uint8_t *slack,
                         size_t slack_len, uint8_t *codeword, size_t codeword_len, uint32_t *serials, size_t serials_len);

/* Reads the message (k*b bytes, to out) from the blocks of the q lowest of the r nodes in from, whichever bytes they hold. Questions 1 to 8. */
uint32_t jirvents_decode(size_t k, size_t r, size_t w, size_t n, size_t b, const uint8_t *codeword, size_t codeword_len, uint32_t from, uint8_t *out,
                         size_t out_len);

/* Writes what a change of the message (k*b bytes) adds to the blocks of the w nodes in to: w*b bytes, the nodes in rising order. Questions 1 to 8. */
uint32_t jirvents_delta(size_t k, size_t r, size_t w, size_t n, size_t b, const uint8_t *change, size_t change_len, uint32_t to, uint8_t *out,
                        size_t out_len);

/* Adds what jirvents_delta tells to the blocks of those nodes in to (w nodes) that are in reached and whose serial is below serial; each takes the serial.
 * Every other byte and serial stays. reached may have any bits, and a send that moves no node is accepted. Questions 1 to 8, 24. */
uint32_t jirvents_update(size_t k, size_t r, size_t w, size_t n, size_t b, uint8_t *codeword, size_t codeword_len, uint32_t *serials, size_t serials_len,
                         const uint8_t *change, size_t change_len, uint32_t to, uint32_t serial, uint32_t reached);

/* Writes the blocks of the nodes in lost anew from those of the q lowest of the r nodes in from; each takes the highest serial of all r. Every other byte and
 * serial stays. lost may have any size, also none. Questions 1 to 9. */
uint32_t jirvents_repair(size_t k, size_t r, size_t w, size_t n, size_t b, uint8_t *codeword, size_t codeword_len, uint32_t *serials, size_t serials_len,
                         uint32_t from, uint32_t lost);

/* Writes the codeword (n2*b bytes, to out) of the new parameters k2, r2, w2, n2 with a new message (k2*b bytes), and its n2 serials (to out_serials). The
 * blocks of the w2 nodes in to and of nodes above n are new and take the highest serial of the r nodes in from; the others are copied and keep theirs; nodes
 * above n2 are dropped. The new blocks are found from those of the q lowest of the nodes in from. from names nodes up to n, to nodes up to n2. Questions 1 to
 * 5, 11 to 14, 6, 7, 8. */
uint32_t jirvents_reconfigure(size_t k, size_t r, size_t w, size_t n, size_t b, size_t k2, size_t r2, size_t w2, size_t n2, const uint8_t *codeword,
                              size_t codeword_len, const uint32_t *serials, size_t serials_len, uint32_t from, uint32_t to, const uint8_t *message,
                              size_t message_len, uint8_t *out, size_t out_len, uint32_t *out_serials, size_t out_serials_len);

/* A node set serves if one message and slack give the blocks of all nodes outside it. Seeks the smallest. Sets are tried by size from 0, the empty set first,
 * and within a size by number; at most budget of them, which may be any number, 0 too. With answer 0: if one serves, *set becomes the first that does, *tried
 * how many were tried, that one among them, *distance 0; if none does, *set becomes the nodes q+1 to n, which always serve, *tried the budget, and *distance
 * their number less the size of the first set not tried. No set that serves is smaller than *set by more than *distance. If the blocks of some message and
 * slack differ from the codeword's at no more than (n - q)/2 nodes, and the budget is above the number of sets that come before the set of these (as it is
 * where *tried is below it; 1 + n does for one node), *set is exactly these nodes. With more damage it may name sound ones: with n - q = 1 it is node 1,
 * whichever node is damaged (node n if the budget is under 2). The budget bounds the time: of 32 nodes up to 2^32 - 32 sets may be tried. Questions 1 to 6. */
uint32_t jirvents_check(size_t k, size_t r, size_t w, size_t n, size_t b, const uint8_t *codeword, size_t codeword_len, size_t budget, uint32_t *set,
                        size_t *tried, size_t *distance);

/* Where a node's block stands: with answer 0 it is the b bytes from codeword + *start on. node is a byte: a larger number must not be cut to one. Questions 1
 * to 6, 10. */
uint32_t jirvents_view(size_t k, size_t r, size_t w, size_t n, size_t b, const uint8_t *codeword, size_t codeword_len, uint8_t node, size_t *start);

/* Writes the inverse of a square matrix over the field, stored by rows, side*side bytes each. With answer 15 *column becomes the first column, counted from 1,
 * that is a sum of multiples of those before it (a column of 00 counts): the same for all who test one matrix. With any other answer *column stays. Questions
 * 16, 6, 15. */
uint32_t jirvents_invert(size_t side, const uint8_t *matrix, size_t matrix_len, uint8_t *out, size_t out_len, size_t *column);

#ifdef __cplusplus
}
#endif

#endif
