/* SQLite with pinpool's page cache. */
#ifndef PINPOOL_SHIM_H
#define PINPOOL_SHIM_H

#ifdef PINPOOL_IN_TESTFIXTURE
#include "sqlite3.h"
#else
#include <sqlite3.h>
#endif

/* The calls that SQLite makes on a page cache. */
extern const sqlite3_pcache_methods2 pinpool_methods;

/* Has each cache that SQLite makes from now on be one of pinpool's. Call it before SQLite is used; it answers SQLite's status.
** At SQLITE_OK each of pinpool's caches that is made afterwards takes SQLite's memory (pinpool_cache_memory), those of the host too;
** so a host with caches of its own makes them before, or calls pinpool_cache_memory anew once SQLite has none to make. At any other
** status nothing has changed. */
int pinpool_for_sqlite(void);

#endif
