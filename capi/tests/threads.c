/* Eight threads search at once, each with a matcher of its own; then one matcher goes from thread to
   thread, ordered by a lock. Each makes, searches and frees. */
#include "gaxtrel.h"
#include <pthread.h>
#include <stdio.h>
#include <string.h>

enum { THREADS = 8, ROUNDS = 40, LINES = 200 };

static const char pattern[] = "(a|aa)*b{1,20}[0-9]+";
static pthread_mutex_t lock = PTHREAD_MUTEX_INITIALIZER;
static gaxtrel_matcher handed = GAXTREL_NONE;
static int turns;

static bool compiles(gaxtrel_matcher *m) {
    gaxtrel_fault fault;
    return gaxtrel_compile(m, (const uint8_t *)pattern, sizeof pattern - 1, GAXTREL_EXTENDED, false, false, &fault) ==
           GAXTREL_OK;
}

/* Lines of each length: `x`s, and then what is matched or not. */
static long wrong_answers(gaxtrel_matcher *m) {
    static const char *const ends[] = {"aaab7", "aaab", "b77b7", ""};
    static const size_t parts[] = {1, 0, 2, 0};
    long wrong = 0;
    for (size_t k = 0; k < LINES; k++) {
        char line[LINES + 8];
        memset(line, 'x', k);
        size_t length = k + strlen(strcpy(line + k, ends[k % 4])), count = 9, number = 9;
        gaxtrel_part part = {0, 0};
        gaxtrel_line found = {9, 9, 9};
        wrong += gaxtrel_is_match(m, (const uint8_t *)line, length) != (parts[k % 4] > 0);
        wrong += gaxtrel_which(m, (const uint8_t *)line, length, &number, 1, &count) != (parts[k % 4] > 0);
        wrong += count != (parts[k % 4] > 0) || (count > 0 && number != 0);
        wrong += gaxtrel_lines(m, (const uint8_t *)line, length, 0, k, &found, 1, &count) != (parts[k % 4] > 0);
        wrong += count > 0 && (found.start != 0 || found.end != length || found.number != k);
        wrong += gaxtrel_parts(m, (const uint8_t *)line, length, 0, &part, 1, &count) != (parts[k % 4] > 0);
        wrong += count != parts[k % 4] || (count > 0 && part.start != k);
    }
    return wrong;
}

static void *own(void *wrong) {
    for (int round = 0; round < ROUNDS; round++) {
        gaxtrel_matcher m = GAXTREL_NONE;
        *(long *)wrong += !compiles(&m);
        *(long *)wrong += wrong_answers(&m);
        gaxtrel_free(&m);
    }
    return 0;
}

/* Every eighth turn frees the matcher, and the next makes it anew. */
static void *shared(void *wrong) {
    for (int round = 0; round < ROUNDS; round++) {
        pthread_mutex_lock(&lock);
        if (turns++ % 8 == 0) *(long *)wrong += !compiles(&handed);
        *(long *)wrong += wrong_answers(&handed);
        if (turns % 8 == 0) gaxtrel_free(&handed);
        pthread_mutex_unlock(&lock);
    }
    return 0;
}

static long run(void *(*work)(void *)) {
    pthread_t threads[THREADS];
    long wrong[THREADS] = {0}, sum = 0;
    for (int k = 0; k < THREADS; k++)
        if (pthread_create(&threads[k], 0, work, &wrong[k])) return 1;
    for (int k = 0; k < THREADS; k++) {
        pthread_join(threads[k], 0);
        sum += wrong[k];
    }
    return sum;
}

int main(void) {
    long alone = run(own), together = run(shared);
    printf("%d threads: %ld wrong answers with a matcher each, %ld with one that goes round\n", THREADS, alone,
           together);
    return alone || together;
}
