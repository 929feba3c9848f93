/* The calls of tevasulim.h that take or give what cannot cross from Rattle: a pointer that may be
 * NULL, a pointer to text, and what is known only where the library is linked. The build defines
 * TEVASULIM_IS_PROVED: 1 where the rest of the library was proved, 0 in a trial build; and
 * TEVASULIM_SOURCES: the sum of the sources that the rest was made of. */
#include "tevasulim.h"

#ifndef TEVASULIM_IS_PROVED
#error "the build has to say whether the library is proved: -DTEVASULIM_IS_PROVED=1 or =0"
#endif
#ifndef TEVASULIM_SOURCES
#error "the build has to say of which sources the library is: -DTEVASULIM_SOURCES='\"SUM\"'"
#endif

/* Of crates/tevasulim_c. The shared library does not export it (exported.map). */
void tevasulim_close_handle(tevasulim_triangulation *self);

/* For this repository's own scripts, and so in no header (tools/sources.py). */
extern const char tevasulim_sources[];

const char tevasulim_sources[] = TEVASULIM_SOURCES;

uint32_t tevasulim_is_proved(void)
{
    return TEVASULIM_IS_PROVED;
}

void tevasulim_close(tevasulim_triangulation *self)
{
    if (self)
        tevasulim_close_handle(self);
}

/* The words of tevasulim_status_text, which checks/c_library.py compares with these. */
const char *tevasulim_status_string(uint32_t status)
{
    switch (status) {
    case 0:
        return "all went well";
    case 1:
        return "the triangulation is closed: open it first";
    case 2:
        return "the triangulation is already open: close it first";
    case 3:
        return "there is no such kind: 0 is plain or a circle, 1 is constrained or a rectangle";
    case 4:
        return "the triangulation is plain: this call is for constrained ones";
    case 5:
        return "the triangulation is constrained: this call is for plain ones";
    case 6:
        return "two lists that go together have different lengths";
    case 7:
        return "a coordinate is out of range: it is more than 2^29 or less than -2^29";
    case 8:
        return "a squared radius or width is negative: it has to be 0 or more";
    case 9:
        return "there is no vertex with this index: the last is the number of vertices less 1";
    case 10:
        return "a segment names a point that is not in the list: indexes of points start at 0";
    case 11:
        return "a constraint crosses the segment: leave one out, or cut both where they meet";
    case 12:
        return "no constraint joins the two vertices: vertices between them may part it in several";
    case 13:
        return "a list is too short: call again with a longer one";
    case 14:
        return "there are too many vertices for 32-bit indexes: 715827882 are the most";
    case 15:
        return "there is not enough memory";
    default:
        return "there is no such status";
    }
}
