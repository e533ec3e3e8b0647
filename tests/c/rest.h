/* What rest.c, which has the types of a kernel, has for rest_threads.c, which has those of the C library. */
#ifndef REST_H
#define REST_H
enum { REST_LENGTHS = 6 };   /* 256 to 4096, and others */
extern uint64_t rests[REST_LENGTHS];
uint32_t begin(uint32_t workers);
uint32_t use(uint32_t worker, uint32_t times);
uint32_t end(uint32_t workers);
uint32_t lengths(void);
#endif
