/* The heap for tests: it counts the requests of a run, and refuses the one that the host names. */

static unsigned long requests, refused_request;

/* Has the heap refuse its request of number `request`, from 1 on. 0 refuses none. */
void refuse_request(unsigned long request) { refused_request = request; }

/* How many requests there were. */
unsigned long count_requests(void) { return requests; }

#define IS_REFUSED() (++requests == refused_request)
#include "../heap.c"
