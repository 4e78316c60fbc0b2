/* qoi.h of Debian's libqoi-dev as an object that ./bench compiles, for the host to time its decode and encode. */
#define QOI_IMPLEMENTATION
#define QOI_NO_STDIO
#include <qoi.h>
