/* The names of one width: of instants where INSTANT is defined, else of seats. */
#include <guineatwirl.h>

#ifdef INSTANT
typedef int64_t point;
#define OF(name) guineatwirl_instant_##name
#define WIDTH "instant"
#define POINT_SIZE 8
#else
typedef uint32_t point;
#define OF(name) guineatwirl_seat_##name
#define WIDTH "seat"
#define POINT_SIZE 4
#endif
