/* The account of a run: a line for each call, with what it says and its replies and actions. */
#ifndef ACCOUNT_H
#define ACCOUNT_H

#include "post.h"

/* Begins a line with the post and what is done, in printf's form. */
void begin(const struct post *p, const char *what, ...);

/* Ends the line with what the call says, its replies and its actions. */
void end(const struct post *p, goosetable_answer a);

/* The same of a call that counts rows or bytes, with their name and number before its replies. */
void end_with(const struct post *p, goosetable_answer a, const char *unit);

/* A tag's first bytes, as hex. */
void tag(const uint8_t *bytes);

#endif
