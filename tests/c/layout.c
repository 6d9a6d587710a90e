/* That the header's structs are laid out as the archive takes them: numbers of 64 bits, one behind the other, in the listed order.
 * It is compiled as C and as C++ and never run; a fact that does not hold is an error of the compiler. */
#include "tillsparrow.h"

#ifdef __cplusplus
#define HOLDS(fact) static_assert(fact, #fact)
#else
#define HOLDS(fact) _Static_assert(fact, #fact)
#endif
#define AT(place, kind, field) HOLDS(offsetof(kind, field) == 8 * (place))

HOLDS(sizeof(tillsparrow_record) == 46 * 8);
AT(0, tillsparrow_record, width);
AT(1, tillsparrow_record, height);
AT(2, tillsparrow_record, channels);
AT(3, tillsparrow_record, across);
AT(7, tillsparrow_record, down);
AT(11, tillsparrow_record, ids);
AT(15, tillsparrow_record, qids);
AT(19, tillsparrow_record, dcids);
AT(23, tillsparrow_record, acids);
AT(27, tillsparrow_record, quants);
AT(31, tillsparrow_record, dcs);
AT(35, tillsparrow_record, acs);
AT(39, tillsparrow_record, interval);
AT(40, tillsparrow_record, start);
AT(41, tillsparrow_record, blocks);
AT(42, tillsparrow_record, scratch);
AT(43, tillsparrow_record, output);
AT(44, tillsparrow_record, work);
AT(45, tillsparrow_record, colour);

HOLDS(sizeof(tillsparrow_inspected) == 50 * 8);
AT(0, tillsparrow_inspected, number);
AT(1, tillsparrow_inspected, left);
AT(2, tillsparrow_inspected, block);
AT(3, tillsparrow_inspected, place);
AT(4, tillsparrow_inspected, found);

HOLDS(sizeof(tillsparrow_decoded) == 2 * 8);
AT(0, tillsparrow_decoded, number);
AT(1, tillsparrow_decoded, left);

HOLDS(sizeof(tillsparrow_settled) == 5 * 8);
AT(0, tillsparrow_settled, number);
AT(1, tillsparrow_settled, left);
AT(2, tillsparrow_settled, block);
AT(3, tillsparrow_settled, place);
AT(4, tillsparrow_settled, length);

HOLDS(sizeof(tillsparrow_part) == 2 * 8);
AT(0, tillsparrow_part, at);
AT(1, tillsparrow_part, length);

HOLDS(sizeof(tillsparrow_presence) == 5 * 8);
AT(0, tillsparrow_presence, number);
AT(1, tillsparrow_presence, left);
AT(2, tillsparrow_presence, block);
AT(3, tillsparrow_presence, place);
AT(4, tillsparrow_presence, there);

HOLDS(TILLSPARROW_ACCEPTED == 0 && TILLSPARROW_TOO_LONG == 1 && TILLSPARROW_OVER_BUDGET == 2 && TILLSPARROW_CUT_SHORT == 3);
HOLDS(TILLSPARROW_MALFORMED == 4 && TILLSPARROW_UNSUPPORTED == 5 && TILLSPARROW_TOO_LARGE == 6 && TILLSPARROW_SHORT_ROOM == 7);
HOLDS(TILLSPARROW_NOT_ITS_RECORD == 8 && TILLSPARROW_NO_END_CODE == 9 && TILLSPARROW_BARE_255 == 10 && TILLSPARROW_NO_CODE == 11);
