/* Refuses one request for memory of a program that is dynamically linked, and tells how many there were.
 *
 * build:  cc -O2 -shared -fPIC -o refuse.so refuse.c -ldl
 * run:    REFUSE=N TOLD=FILE LD_PRELOAD=./refuse.so PROGRAM ..
 *
 * The Nth call of malloc or realloc is refused, none where N is 0. FILE gets two numbers: how many calls there were,
 * and how many before the first thread was made.
 */
#define _GNU_SOURCE
#include <dlfcn.h>
#include <errno.h>
#include <fcntl.h>
#include <pthread.h>
#include <stdatomic.h>
#include <stdio.h>
#include <stdlib.h>
#include <sys/syscall.h>
#include <unistd.h>

static atomic_ulong count, alone;
static unsigned long refused;
static void *(*next_malloc)(size_t);
static void *(*next_realloc)(void *, size_t);
static int (*next_create)(pthread_t *, const pthread_attr_t *, void *(*)(void *), void *);

__attribute__((constructor)) static void begin(void)
{
	const char *text = getenv("REFUSE");
	next_malloc = dlsym(RTLD_NEXT, "malloc");
	next_realloc = dlsym(RTLD_NEXT, "realloc");
	next_create = dlsym(RTLD_NEXT, "pthread_create");
	refused = text ? strtoul(text, 0, 10) : 0;
	count = 0;
}

/* The program ends by this call, with nothing run behind it. */
void _exit(int status)
{
	const char *name = getenv("TOLD");
	int told = name ? open(name, O_WRONLY | O_CREAT | O_TRUNC, 0666) : -1;
	if (told >= 0)
		dprintf(told, "%lu %lu\n", (unsigned long)count, (unsigned long)alone);
	syscall(SYS_exit_group, status);
	__builtin_unreachable();
}

static int is_refused(void)
{
	if (++count != refused)
		return 0;
	errno = ENOMEM;
	return 1;
}

void *malloc(size_t size)
{
	if (!next_malloc)
		begin();
	return is_refused() ? 0 : next_malloc(size);
}

void *realloc(void *old, size_t size)
{
	return is_refused() ? 0 : next_realloc(old, size);
}

int pthread_create(pthread_t *thread, const pthread_attr_t *how, void *(*run)(void *), void *with)
{
	unsigned long none = 0;
	atomic_compare_exchange_strong(&alone, &none, count);
	return next_create(thread, how, run, with);
}
