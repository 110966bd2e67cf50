/* The library answers 22 and does not say by which limit. Frames of a process that works on its own variables are all of its own module's procedures,
 * and may take together what its module reserves for them; any others count against the area alone. */
#include "room.h"
#include "joyce.h"

static unsigned at(const struct view *v, int section, unsigned entry, int field)
{
    return (unsigned)get(v->text.table, section, (int)entry, field);
}

static unsigned block_words(const struct view *v, unsigned block)
{
    unsigned first = at(v, BLOCKS, block, B_FIRST), words = 0;
    for (unsigned i = 0; i < at(v, BLOCKS, block, B_VARIABLES); i++)
        words += variable_words(v, first + i);
    return words;
}

static unsigned frame_words(const struct view *v, unsigned procedure)
{
    return JOYCE_CALL_WORDS + block_words(v, procedure);
}

/* One call of each procedure of a module. */
static unsigned words_of_calls(const struct view *v, unsigned module)
{
    unsigned words = 0;
    for (unsigned i = 0; i < (unsigned)v->text.table->count[BLOCKS]; i++)
        if (at(v, BLOCKS, i, B_KIND) == PROCEDURE && at(v, BLOCKS, i, B_OWNER) == module)
            words += frame_words(v, i);
    return words;
}

static void write_area(struct view *v, const struct record *r, unsigned added)
{
    fprintf(v->text.out, "the area of %d words: %u are in use, and this call takes %u", JOYCE_AREA_WORDS, r->top, added);
}

static void write_reserve(struct view *v, const struct record *r, unsigned own, unsigned added)
{
    unsigned space = at(v, BLOCKS, r->module, B_SPACE), calls = words_of_calls(v, r->module), least = 2 * (own + added - calls);
    fprintf(v->text.out, "the call passes the reserve of its module, %u words: its calls take %u, and this one %u", calls + space / 2, own, added);
    fprintf(v->text.out, " (one call of each procedure is %u, half the space of %u bytes %u", calls, space, space / 2);
    if (r->top + added > JOYCE_AREA_WORDS) {
        fputs("); it passes ", v->text.out);
        write_area(v, r, added);
    } else {
        fprintf(v->text.out, "; a space of %u has room for it)", least);
    }
}

bool write_room(struct view *v, unsigned process)
{
    if (process < 1 || process > created_of(v->state))
        return false;
    struct record r = record_of(v->state, process);
    if (r.status != STARTED)
        return false;
    unsigned kind = at(v, STATEMENTS, r.statement, S_KIND);
    if (kind != CALL && kind != PROCESS_CALL)
        return false;
    unsigned added = frame_words(v, at(v, STATEMENTS, r.statement, kind == CALL ? S_A : S_B)), own = r.top - block_words(v, r.module);
    unsigned reserve = words_of_calls(v, r.module) + at(v, BLOCKS, r.module, B_SPACE) / 2;
    if (kind == CALL && r.works == process && own + added > reserve)
        write_reserve(v, &r, own, added);
    else if (r.top + added > JOYCE_AREA_WORDS) {
        fputs("the call passes ", v->text.out);
        write_area(v, &r, added);
    } else
        return false;
    return true;
}
