/* Every call of the library from C: answers lines as the program `calls` does (it takes lines that can be read; --help of that
 * program tells what they are), and says on standard error how much stack the calls took. It fails if that is more than the
 * header allows. */
#define _DEFAULT_SOURCE
#include "boxashewu.h"
#include <inttypes.h>
#include <pthread.h>
#include <stdio.h>
#include <stdlib.h>
#include <string.h>
#include <sys/mman.h>

enum { LINE_BYTES = 160000, MOST_WORDS = 16384, MOST_NUMBERS = 5, STACK = 1 << 20, PAINT = 0xa5 };

static char line[LINE_BYTES];
static uint32_t words[MOST_WORDS];
static uint32_t space[AUCTION_OPENING_WORDS + 1000];
static uint64_t fees[AUCTION_FEE_PLACES + 8];
static uint64_t numbers[MOST_NUMBERS];

/* A number that a parameter of 32 bits cannot hold is handed on as the largest that it can: that is no price, code, side
 * or figure of a tariff either. */
static uint32_t narrow(uint64_t number) {
    return number > UINT32_MAX ? UINT32_MAX : (uint32_t)number;
}

/* Whether the call answers; its refusal is printed here. */
static int answers(uint32_t refusal, size_t place) {
    if (refusal != 0) {
        printf("refused %" PRIu32 " %zu\n", refusal, place);
    }
    return refusal == 0;
}

static void print_sheet(struct auction_sheet reply) {
    if (answers(reply.refusal, reply.order)) {
        puts("accepted");
    }
}

static void print_price(struct auction_price reply) {
    if (answers(reply.refusal, reply.order)) {
        printf("%" PRIu32 "\n", reply.price);
    }
}

static void print_curves(struct auction_curves reply) {
    if (answers(reply.refusal, reply.order)) {
        printf("%" PRIu64 " %" PRIu64 " %" PRIu64 "\n", reply.demand, reply.supply, reply.volume);
    }
}

static void print_words(size_t count) {
    for (size_t i = 0; i < count; i++) {
        printf("%s%08" PRIx32, i > 0 ? " " : "", space[i]);
    }
}

static void print_space(struct auction_space reply) {
    if (answers(reply.refusal, reply.order)) {
        print_words(reply.count);
        puts("");
    }
}

/* The words, then a fee for each order of the sheet, which has been accepted. */
static void print_fees(struct auction_space reply) {
    if (!answers(reply.refusal, reply.order)) {
        return;
    }
    print_words(reply.count);
    printf(" fees");
    for (size_t k = 0; k < (words[4] & 0xfffffff); k++) {
        printf(" %" PRIu64, fees[k]);
    }
    puts("");
}

/* A round of the result that stands behind the first `count` words, which are the sheet. */
static void print_round(size_t count, size_t length, size_t round) {
    const uint32_t *stored = words + count;
    struct auction_stored opened = auction_stored_opens(words, count, stored, length);
    struct auction_round reply = auction_stored_round(words, count, stored, length, round);
    if (opened.different != reply.different || opened.place != reply.place) {
        puts("one call finds another difference than the other");
    } else if (reply.different) {
        printf("different %zu\n", reply.place);
    } else if (answers(reply.refusal, reply.order)) {
        printf("%" PRIu32 " %" PRIu32 " %" PRIu32 " %" PRIu32, reply.situation, reply.price, reply.purchase, reply.total);
        for (size_t k = 0; k < reply.count; k++) {
            printf(" %" PRIu32, stored[reply.fills + k] & 0xfffffff);
        }
        puts("");
    }
}

static void print_band(struct auction_band reply) {
    if (answers(reply.refusal, reply.order)) {
        printf("%" PRIu32 " %" PRIu32 "\n", reply.lower, reply.upper);
    }
}

static void print_waiting(struct auction_waiting reply) {
    if (answers(reply.refusal, reply.place)) {
        printf("%" PRIu32 " %" PRIu32 " %" PRIu32 " %" PRIu32 " %" PRIu32 " %" PRIu32 "\n", reply.phase, reply.start,
               reply.side, reply.lower, reply.upper, reply.due);
    }
}

/* The next `most` fields of the line as decimal numbers; how many there were. */
static size_t read_numbers(size_t most) {
    size_t count = 0;
    for (char *field; count < most && (field = strtok(NULL, " \n")); count++) {
        numbers[count] = strtoull(field, NULL, 10);
    }
    return count;
}

/* The other fields of the line, as the words of a list; how many there are. */
static size_t read_words(void) {
    size_t count = 0;
    for (char *field; count < MOST_WORDS && (field = strtok(NULL, " \n")); count++) {
        words[count] = narrow(strtoul(field, NULL, 16));
    }
    return count;
}

/* So many words of the space, or places of the fee list, as a line lends, no more than there are. */
static size_t room(uint64_t lent) {
    size_t whole = sizeof space / sizeof *space;
    return lent < whole ? (size_t)lent : whole;
}

static size_t places(uint64_t lent) {
    size_t whole = sizeof fees / sizeof *fees;
    return lent < whole ? (size_t)lent : whole;
}

static int answer_on_sheet(const char *call) {
    if (strcmp(call, "check") == 0) {
        print_sheet(auction_check(words, read_words()));
        return 1;
    }
    read_numbers(strcmp(call, "fees") == 0 ? 5 : strcmp(call, "view") == 0 ? 2 : 1);
    size_t count = read_words();
    if (strcmp(call, "fees") == 0) {
        print_fees(auction_opening_fees(words, count, narrow(numbers[0]), narrow(numbers[1]), narrow(numbers[2]), space,
                                        room(numbers[3]), fees, places(numbers[4])));
    } else if (strcmp(call, "view") == 0) {
        print_round((size_t)numbers[1], count - (size_t)numbers[1], (size_t)numbers[0]);
    } else if (strcmp(call, "stepper") == 0) {
        print_price(auction_stepper_limit(words, count, (size_t)numbers[0]));
    } else if (strcmp(call, "curves") == 0) {
        print_curves(auction_curves_at(words, count, narrow(numbers[0])));
    } else if (strcmp(call, "round") == 0) {
        print_space(auction_first_round(words, count, space, room(numbers[0])));
    } else if (strcmp(call, "opening") == 0) {
        print_space(auction_opening(words, count, space, room(numbers[0])));
    } else {
        return 0;
    }
    return 1;
}

static int answer_on_band(const char *call) {
    if (strcmp(call, "indicative") == 0 && read_numbers(5) == 5) {
        print_price(auction_indicative_price(narrow(numbers[0]), narrow(numbers[1]), numbers[2], narrow(numbers[3]),
                                             narrow(numbers[4])));
    } else if (strcmp(call, "next") == 0 && read_numbers(2) == 2) {
        print_band(auction_next_band(narrow(numbers[0]), narrow(numbers[1])));
    } else if (strcmp(call, "widen") == 0 && read_numbers(3) == 3) {
        print_band(auction_widened_band(narrow(numbers[0]), narrow(numbers[1]), narrow(numbers[2])));
    } else if (strcmp(call, "waiting") == 0 && read_numbers(2) == 2) {
        size_t count = read_words();
        print_waiting(auction_waiting_clock(narrow(numbers[0]), narrow(numbers[1]), words, count));
    } else {
        return 0;
    }
    return 1;
}

static void *answer_all(void *nothing) {
    while (fgets(line, LINE_BYTES, stdin)) {
        const char *call = strtok(line, " \n");
        if (call && !answer_on_band(call) && !answer_on_sheet(call)) {
            puts("unreadable");
        }
    }
    return nothing;
}

/* Answers the lines on a stack that was painted before, and looks how far down the paint is gone. */
int main(void) {
    unsigned char *stack = mmap(NULL, STACK, PROT_READ | PROT_WRITE, MAP_PRIVATE | MAP_ANONYMOUS, -1, 0);
    pthread_attr_t attributes;
    pthread_t thread;
    if (stack == MAP_FAILED || pthread_attr_init(&attributes) || pthread_attr_setstack(&attributes, stack, STACK)) {
        perror("stack");
        return 2;
    }
    memset(stack, PAINT, STACK);
    if (pthread_create(&thread, &attributes, answer_all, NULL) || pthread_join(thread, NULL)) {
        perror("thread");
        return 2;
    }
    size_t kept = 0;
    while (kept < STACK && stack[kept] == PAINT) {
        kept++;
    }
    fprintf(stderr, "stack: %zu bytes, with those of the program\n", STACK - kept);
    return STACK - kept > AUCTION_STACK_BYTES;
}
