/* What is told of the library itself, and of its results. */
#include <perdoaze.h>

uint32_t perdoaze_version(void)
{
	return PERDOAZE_VERSION;
}

const char *perdoaze_strerror(int result)
{
	switch (result < 0 ? -(int64_t)result : result) {
	case 0:
		return "done";
	case PERDOAZE_ENOENT:
		return "no driver has that name";
	case PERDOAZE_E2BIG:
		return "too much for one call";
	case PERDOAZE_EAGAIN:
		return "as many requests are in flight as there is room for";
	case PERDOAZE_ENOMEM:
		return "out of memory";
	case PERDOAZE_EBUSY:
		return "busy, or accepted into the backlog";
	case PERDOAZE_EINVAL:
		return "not taken: a length, name, key, number or place";
	case PERDOAZE_ENOSPC:
		return "the queue is full";
	case PERDOAZE_EBADMSG:
		return "the tag is wrong, or bytes differ";
	case PERDOAZE_EOVERFLOW:
		return "no room for the answer";
	case PERDOAZE_EINPROGRESS:
		return "accepted, not complete";
	case PERDOAZE_ECANCELED:
		return "cancelled";
	case PERDOAZE_ENOKEY:
		return "no key was set";
	default:
		return "unknown result";
	}
}
