/* A heap that refuses one request for memory. */

/* Counts requests from 1 again, and refuses the one of this number; 0 refuses none. */
void heap_refuse(long number);

/* How many requests were made since then. */
long heap_requests(void);

/* How many blocks are in use. */
long heap_blocks(void);
