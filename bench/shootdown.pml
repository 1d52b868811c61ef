/* The programs of `shootdown` in explore.py for SPIN: hart 0 maps a page, starts the others, which load from it LOADS times, and changes its
   leaf CHANGES times, with a remote fence of it each time. One d_step is a step of the board. A state has what tells it apart; what follows
   from that is left out (satp, the words of the tables). */

#define STARTS (2 * CHANGES + HARTS - 1) /* hart 0's operations from its first hart_start on */

byte left[HARTS];           /* the operations of its block that a hart hasn't done */
bit is_start_pending[HARTS];
bit is_started[HARTS];
byte entry[HARTS];          /* the leaf in a hart's TLB; 0: none, or the hart loads no more */
bit has_fence[HARTS];       /* a fence waits at a hart */
bit is_in_call;             /* hart 0 is inside its fence call */
byte waiting;               /* how many fences wait */
byte leaf = 1;              /* the leaf in memory */
byte at;

inline ask() {
    is_in_call = 1;
    at = 1;
    do
    :: at < HARTS -> has_fence[at] = is_started[at]; waiting = waiting + is_started[at]; at++
    :: at == HARTS -> break
    od;
    at = 0
}

/* Hart 0's next operation. */
inline change() {
    left[0]--;
    if
    :: left[0] >= STARTS -> skip
    :: left[0] < STARTS && left[0] >= 2 * CHANGES -> is_start_pending[STARTS - left[0]] = 1
    :: left[0] < 2 * CHANGES && left[0] % 2 == 1 -> leaf = 2 + (CHANGES - 1 - left[0] / 2) % 2
    :: left[0] < 2 * CHANGES && left[0] % 2 == 0 -> ask()
    fi
}

/* The steps of another hart: its entry, a fence that it serves, and its next operation, satp or a load. */
#define HART(h) \
    :: d_step { is_start_pending[h] -> is_start_pending[h] = 0; is_started[h] = 1; left[h] = 1 + LOADS } \
    :: d_step { has_fence[h] -> has_fence[h] = 0; waiting--; entry[h] = 0 } \
    :: d_step { is_started[h] && left[h] > 0 -> \
        if :: left[h] == 1 -> entry[h] = 0 :: left[h] > 1 && left[h] <= LOADS && entry[h] == 0 -> entry[h] = leaf :: else fi; left[h]-- }

active proctype board() {
    do
    :: d_step { !is_started[0] -> is_started[0] = 1; left[0] = 3 + STARTS }
    :: d_step { is_started[0] && left[0] > 0 && !is_in_call -> change() }
    :: d_step { is_in_call && waiting == 0 -> is_in_call = 0 }
    HART(1)
#if HARTS > 2
    HART(2)
#endif
#if HARTS > 3
    HART(3)
#endif
#if HARTS > 4
    HART(4)
#endif
#if HARTS > 5
    HART(5)
#endif
    od
}
