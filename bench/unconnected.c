/* A connect that fails. Loaded in front of the C library (LD_PRELOAD), it gives each call the error
 * whose number REFUSED_CONNECT has, as a firewall or a filter of system calls does. */
#include <errno.h>
#include <stdlib.h>
#include <sys/socket.h>

int connect(int socket, const struct sockaddr *address, socklen_t size)
{
	const char *number = getenv("REFUSED_CONNECT");
	(void)socket;
	(void)address;
	(void)size;
	errno = number == NULL ? EACCES : atoi(number);
	return -1;
}
